//! Subjects that have one mark.
use crate::model_mark::mark;

/// Those of some texts that have the mark of the first.
pub fn like_the_first(mut texts: impl Iterator<Item = String>) -> Vec<String> {
    let Some(first) = texts.next() else {
        return Vec::new();
    };
    let due = mark(first.as_bytes());
    let others = texts.filter(|text| mark(text.as_bytes()) == due);
    [first].into_iter().chain(others).collect()
}

const LETTERS: &str = "abcdefghijklmnopqrstuvwxyzABCDEFGHIJKLMNOPQRSTUVWXYZ0123456789-_";

/// Over 1,024 subjects of 32 bytes. They differ in three letters, each the last of a word of eight bytes, and one in 256 of such has the mark of the first.
pub fn of_one_length() -> Vec<String> {
    let mut texts = Vec::new();
    for one in LETTERS.chars() {
        for two in LETTERS.chars() {
            let text = |three| format!("yard.north.hall{one}.points{two}.track-{three}");
            texts.extend(LETTERS.chars().map(text));
        }
    }
    like_the_first(texts.into_iter())
}
