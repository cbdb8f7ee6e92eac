//! Crossings of literals that are equal, that differ in one byte, or of which one goes on: at every place of a word of eight bytes and of the rest, and wherever
//! in a word they begin.
use super::pair::Pair;
use crate::tally::{Family, Tally};
use crate::words::LETTERS;

/// Bytes of long literals, and how many places at each end of them are tried.
const LONG: [usize; 4] = [100, 511, 2000, 4000];
const END: usize = 20;

/// Two literals, each behind another token, and the other way round.
fn pair(tally: &mut Tally, front: &[u8], one: &[u8], other: &[u8]) {
    let [first, second] = [[front, one], [b"*", other]].map(|tokens| tokens.join(&b'.'));
    for patterns in [[&first[..], &second], [&second, &first]] {
        let pair = Pair::new(patterns);
        pair.calls(tally, pair.lengths());
    }
}

/// A literal beside itself, beside what it begins with and goes on with, and with a byte changed at some places.
fn literal(tally: &mut Tally, front: &[u8], literal: &[u8], places: impl Iterator<Item = usize>) {
    pair(tally, front, literal, literal);
    pair(tally, front, literal, &literal[..literal.len() - 1]);
    pair(tally, front, literal, &[literal, b"-"].concat());
    for place in places {
        let mut other = literal.to_vec();
        other[place] ^= 1;
        pair(tally, front, literal, &other);
    }
}

pub fn run(tally: &mut Tally) {
    for front in 1..=8 {
        let front = &LETTERS[..front];
        for length in 1..=LETTERS.len() {
            literal(tally, front, &LETTERS[..length], 0..length);
        }
        for length in LONG {
            let ends = (0..END).chain(length - END..length);
            literal(tally, front, &vec![b'a'; length], ends);
        }
    }
    tally.report(
        Family::Crossings,
        "crossings of literals of up to 40 bytes and of 100 to 4,000, with one byte changed",
    );
}
