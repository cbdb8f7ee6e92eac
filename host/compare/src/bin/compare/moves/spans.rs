//! Moves with spans that lie anywhere: at the ends of the bytes and behind them, at the ends of what a number can be, over each other, inside characters.
use super::ground::Ground;
use super::lines;
use super::subjects::Subjects;
use crate::tally::{Family, Tally};
use compare::model_move::MOST_SUBJECTS;
use compare::original::MAX_TEXT;
use router::MAX_TOKENS;

/// Parts of the text are routed, not routed, or refused.
const LINES: [(&str, u32); 8] = [
    ("a", 1),
    ("b", 2),
    ("a.b", 3),
    ("b.a", 4),
    ("*.b.a", 5),
    ("a.b.a", 6),
    ("ö", 7),
    ("long.>", 8),
];
const TEXT: &[u8] = "a.b.a.ö".as_bytes();

/// Bytes behind it that are not lent.
const BEHIND: &[u8] = b".a.";

/// A routed subject in the text.
const ROUTED: [usize; 2] = [0, 1];

/// The text, with the bytes behind it, and spans.
fn in_text(spans: &[[usize; 2]]) -> Subjects {
    Subjects {
        lent_bytes: TEXT.len(),
        ..Subjects::new([TEXT, BEHIND].concat(), spans.concat())
    }
}

/// All numbers up to some behind the bytes.
fn near() -> Vec<usize> {
    (0..=TEXT.len() + BEHIND.len()).collect()
}

/// Numbers at the ends of the bytes, and of what a number can be.
fn far() -> Vec<usize> {
    let length = TEXT.len();
    let ends = [0, length, 1 << 32, 1 << 62, 1 << 63, usize::MAX];
    let around = |end: usize| (0..6).map(move |place| end.wrapping_add(place).wrapping_sub(3));
    let sums = (0..=length + 1).map(|place| usize::MAX - place);
    ends.into_iter().flat_map(around).chain(sums).collect()
}

/// Each two of some numbers, as a span.
fn pairs(numbers: &[usize]) -> Vec<[usize; 2]> {
    let spans = |&start| numbers.iter().map(move |&length| [start, length]);
    numbers.iter().flat_map(spans).collect()
}

/// Each two spans near the text, one behind the other.
fn two(tally: &mut Tally, ground: &Ground) {
    let spans = pairs(&near());
    for &one in &spans {
        for &other in &spans {
            ground.call(tally, &in_text(&[one, other]), 2);
        }
    }
    let part = "moves of two subjects anywhere in a text and behind it";
    tally.report(Family::Moves, part);
}

/// A span of any numbers, alone and at each place beside routed subjects.
fn one(tally: &mut Tally, ground: &Ground) {
    let nothing = |spans: &[[usize; 2]]| Subjects::new(Vec::new(), spans.concat());
    for span in pairs(&far()) {
        ground.calls(tally, &in_text(&[span]));
        ground.calls(tally, &nothing(&[span]));
        for place in 0..3 {
            let mut spans = [ROUTED; 3];
            spans[place] = span;
            ground.calls(tally, &in_text(&spans));
        }
        let mut spans = [ROUTED; MOST_SUBJECTS];
        spans[MOST_SUBJECTS - 1] = span;
        ground.call(tally, &in_text(&spans), MOST_SUBJECTS);
    }
    let part = "moves with a start and a length of any numbers, sums that wrap among them";
    tally.report(Family::Moves, part);
}

/// Subjects of about 4,096 bytes: as many as there may be, one behind the other, and others over each other.
fn long(tally: &mut Tally, ground: &Ground) {
    let mut text = b"long.".to_vec();
    text.resize(MAX_TEXT, b'x');
    let apart = Subjects::of(&[&text; MOST_SUBJECTS]);
    ground.calls(tally, &apart);
    for place in [0, 1, 31, 62, 63] {
        let mut longer = apart.clone();
        longer.spans[2 * place + 1] += 1;
        ground.calls(tally, &longer);
    }
    text.extend_from_slice(b".y");
    for start in 0..=2 {
        for length in MAX_TEXT - 2..=MAX_TEXT + 3 {
            let spans = [[0, MAX_TEXT], [start, length], [0, MAX_TEXT]].concat();
            ground.calls(tally, &Subjects::new(text.clone(), spans));
        }
    }
    let longer = (6..).take(MOST_SUBJECTS).flat_map(|length| [0, length]);
    ground.calls(tally, &Subjects::new(text, longer.collect()));
}

/// Subjects of about 32 tokens.
fn deep(tally: &mut Tally, ground: &Ground) {
    let text = [b"long", &b".x".repeat(MAX_TOKENS)[..]].concat();
    for tokens in MAX_TOKENS - 1..=MAX_TOKENS + 1 {
        let spans = vec![0, 4 + 2 * (tokens - 1), 0, 6];
        ground.calls(tally, &Subjects::new(text.clone(), spans));
    }
}

pub fn run(tally: &mut Tally) {
    let ground = Ground::built(tally, &lines(&LINES));
    two(tally, &ground);
    one(tally, &ground);
    long(tally, &ground);
    deep(tally, &ground);
    let part = "moves of subjects of about 4,096 bytes or 32 tokens";
    tally.report(Family::Moves, part);
}
