//! Every input up to some length.
use crate::tally::{Family, Tally};

/// Characters of each kind that the grammar knows, with two and three bytes too.
const CHARACTERS: [&str; 9] = ["a", ".", "*", ">", " ", "\x01", "\x7f", "é", "€"];

/// The bytes at the edges of the ranges that make up well-formed UTF-8.
const UTF8_EDGES: &[u8] = b"\x00a\x7f\x80\x8f\x90\x9f\xa0\xbf\xc0\xc1\xc2\xdf\xe0\xe1\xec\xed\xee\xef\xf0\xf1\xf3\xf4\xf5\xfe\xff";

const PATTERN_CHARACTERS: &[u8] = b"ab.*>";
const SUBJECT_CHARACTERS: &[u8] = b"ab.";

/// Visits `text` and each text that goes on from it with up to `more` of the characters.
fn each_text(characters: &[&[u8]], more: usize, text: &mut Vec<u8>, visit: &mut impl FnMut(&[u8])) {
    visit(text);
    if more == 0 {
        return;
    }
    let length = text.len();
    for character in characters {
        text.extend_from_slice(character);
        each_text(characters, more - 1, text, visit);
        text.truncate(length);
    }
}

fn texts_of(characters: &[&[u8]], most: usize, mut visit: impl FnMut(&[u8])) {
    each_text(characters, most, &mut Vec::new(), &mut visit);
}

/// Visits each text of up to `most` of these bytes.
pub fn texts_of_bytes(bytes: &[u8], most: usize, visit: impl FnMut(&[u8])) {
    let characters: Vec<&[u8]> = bytes.chunks(1).collect();
    texts_of(&characters, most, visit);
}

fn pairs(tally: &mut Tally) {
    let mut subjects = Vec::new();
    texts_of_bytes(SUBJECT_CHARACTERS, 5, |subject| {
        subjects.push(subject.to_vec())
    });
    texts_of_bytes(PATTERN_CHARACTERS, 5, |pattern| {
        for subject in &subjects {
            tally.matching(pattern, subject);
        }
    });
}

pub fn run(tally: &mut Tally) {
    texts_of(&CHARACTERS.map(str::as_bytes), 6, |text| tally.text(text));
    tally.report(Family::Texts, "texts of up to 6 characters out of 9");

    let bytes: Vec<u8> = (0..=255).collect();
    texts_of_bytes(&bytes, 3, |text| tally.text(text));
    tally.report(Family::Texts, "texts of up to 3 bytes");

    texts_of_bytes(UTF8_EDGES, 4, |text| tally.text(text));
    tally.report(
        Family::Texts,
        "texts of up to 4 bytes out of 26 at the edges of UTF-8",
    );

    pairs(tally);
    tally.report(
        Family::Texts,
        "patterns of up to 5 characters out of 5 against subjects of up to 5 out of 3",
    );
}
