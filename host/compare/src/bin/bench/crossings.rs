//! The rows on crossings of two patterns, beside the model.
use crate::row::{self, row_beside, MODEL};
use compare::lists::Line;
use compare::model_crossing::{Due, Patterns};
use compare::original::MAX_TEXT;
use compare::random::Random;
use router::raw;
use std::cell::RefCell;

/// Pairs of lines in the row on lines that do not cross.
const APART: usize = 500;

/// The row on all pairs makes one round in so many, for a round of it takes long.
const LONG: usize = 20;

type Pair = [Vec<u8>; 2];

/// The bytes of the subject that the router shows, 0 for none.
fn ours([first, second]: Patterns, out: &mut [u8]) -> u64 {
    raw::crossing(first, second, out).second
}

/// The same of the model.
fn model(patterns: Patterns) -> u64 {
    Due::new(patterns).fewest().unwrap_or(0) as u64
}

/// A row on pairs, each with so many bytes to show or, for none, 0.
fn pairs(name: &str, rounds: usize, pairs: &[Pair]) {
    let out = RefCell::new([0; MAX_TEXT]);
    let ours = |[first, second]: &Pair| ours([first, second], &mut *out.borrow_mut());
    let model = |[first, second]: &Pair| model([first, second]);
    assert!(pairs.iter().all(|pair| ours(pair) == model(pair)), "{name}");
    row_beside(MODEL, name, rounds, pairs, &[&ours, &model]);
}

/// The sum of a call over each two lines.
fn over_pairs(lines: &[Line], mut call: impl FnMut(Patterns) -> u64) -> u64 {
    let mut sum = 0;
    for (place, (first, _)) in lines.iter().enumerate() {
        for (second, _) in &lines[place + 1..] {
            sum += call([first, second]);
        }
    }
    sum
}

/// Each two lines that cross.
fn crossing_pairs(lines: &[Line]) -> Vec<Pair> {
    let mut found = Vec::new();
    over_pairs(lines, |patterns| {
        let bytes = model(patterns);
        if bytes > 0 {
            found.push(patterns.map(<[u8]>::to_vec));
        }
        bytes
    });
    found
}

/// Drawn pairs of lines that do not cross.
fn apart_pairs(lines: &[Line]) -> Vec<Pair> {
    let mut random = Random::new(500);
    let mut line = || lines[random.below(lines.len())].0.clone();
    let pairs = std::iter::from_fn(|| Some([line(), line()]));
    let apart = pairs.filter(|[first, second]| model([first, second]) == 0);
    apart.take(APART).collect()
}

/// The row on each two lines of a list, all together.
fn all_pairs(rounds: usize, lines: &[Line]) {
    let name = format!("crossing, all pairs of {}", row::lines(lines.len()));
    let out = RefCell::new([0; MAX_TEXT]);
    let ours = |lines: &&[Line]| {
        let out = &mut *out.borrow_mut();
        over_pairs(lines, |patterns| ours(patterns, out))
    };
    let model = |lines: &&[Line]| over_pairs(lines, model);
    assert_eq!(ours(&lines), model(&lines), "{name}");
    let rounds = rounds.div_ceil(LONG);
    row_beside(MODEL, &name, rounds, &[lines], &[&ours, &model]);
}

/// The tokens of a subject of 4,096 bytes in 32 tokens, mostly of one character.
fn longest(character: &str) -> Vec<Vec<u8>> {
    let token = character.repeat(126 / character.len()) + "-";
    let mut tokens = vec![token.into_bytes(); 32];
    tokens[31].push(b'-');
    tokens
}

/// Two patterns that show such a subject, each asking for every other token.
fn halves(tokens: &[Vec<u8>]) -> Pair {
    [0, 1].map(|half| {
        let asked = |place| place % 2 == half;
        let tokens = tokens.iter().enumerate();
        let tokens = tokens.map(|(place, token)| if asked(place) { token } else { &b"*"[..] });
        tokens.collect::<Vec<&[u8]>>().join(&b'.')
    })
}

/// The rows on the longest subject shown, and on the patterns that take the router longest: as long as can be, not ASCII, and equal to the end.
fn longest_rows(rounds: usize) {
    let halves = halves(&longest("a"));
    let name = "crossing, 4,096 bytes in 32 tokens, half of each";
    pairs(name, rounds, &[halves]);
    let whole = longest("ä").join(&b'.');
    let mut other = whole.clone();
    other[MAX_TEXT - 1] = b'+';
    let name = "crossing, 4,096 bytes of umlauts and the same";
    pairs(name, rounds, &[[whole.clone(), whole.clone()]]);
    let name = "crossing, the same but for the last byte, none";
    pairs(name, rounds, &[[whole, other]]);
}

pub fn rows(rounds: usize, lines: &[Line]) {
    let crossing = crossing_pairs(lines);
    let name = format!("crossing, the yard list's {} pairs shown", crossing.len());
    pairs(&name, rounds, &crossing);
    let name = "crossing, two lines of the yard list, none";
    pairs(name, rounds, &apart_pairs(lines));
    all_pairs(rounds, lines);
    longest_rows(rounds);
}
