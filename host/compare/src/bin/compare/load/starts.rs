//! Calls from starts of every kind, with outputs of every length that matters.
use super::met::MOST_LENT;
use super::start::Start;
use crate::tally::{Family, Tally};
use compare::model_load::{KINDS, MOST_TOKENS};
use compare::random::Random;

/// Starts found for each number of tokens.
const FOUND: usize = 200;

/// Both calls with every length of output.
fn lengths(tally: &mut Tally, start: &Start) {
    for kind in KINDS {
        for length in 0..=MOST_LENT {
            start.call(tally, kind, length);
        }
    }
}

/// The same from a state.
pub fn all_lengths(tally: &mut Tally, state: u64) {
    lengths(tally, &Start::new(state));
}

fn part(tally: &mut Tally, states: impl IntoIterator<Item = u64>, about: &str) {
    for state in states {
        all_lengths(tally, state);
    }
    let part = format!("texts made from {about}, with outputs of 0 to {MOST_LENT} bytes");
    tally.report(Family::Made, &part);
}

/// Each power of two with its neighbours, but for 0.
fn powers() -> impl Iterator<Item = u64> {
    let power = |bit| 1u64 << bit;
    let near = move |bit| [power(bit) - 1, power(bit), power(bit) + 1];
    (0..64).flat_map(near).filter(|&state| state != 0)
}

/// So many multiples of a power of two, from the first on.
fn multiples(count: u64, bits: u32) -> impl Iterator<Item = u64> {
    (1..=count).map(move |factor| factor << bits)
}

/// Some starts for each number of tokens.
fn found(tally: &mut Tally, random: &mut Random) {
    for count in 1..=MOST_TOKENS {
        let starts = std::iter::from_fn(|| Some(Start::new(random.seed())));
        let starts = starts.filter(|start| start.token_count() == count);
        for start in starts.take(FOUND) {
            lengths(tally, &start);
        }
    }
    let part = format!("texts made from {FOUND} starts found for each number of tokens");
    tally.report(Family::Made, &part);
}

pub fn run(tally: &mut Tally, random: &mut Random) {
    part(tally, [0], "0");
    part(tally, 1..=20_000, "1 to 20,000");
    part(tally, powers(), "powers of two and their neighbours");
    part(tally, u64::MAX - 999..=u64::MAX, "the last 1,000 starts");
    let about = "the first and the last 1,000 multiples of 2^32";
    let last = multiples(1_000, 32).map(u64::wrapping_neg);
    part(tally, multiples(1_000, 32).chain(last), about);
    part(tally, multiples(0xffff, 48), "all multiples of 2^48");
    found(tally, random);
}

/// A start that may be any: often with few bits, or only high or low ones.
pub fn any(random: &mut Random) -> u64 {
    let any = random.seed();
    let bit = |random: &mut Random| 1 << random.below(64);
    match random.below(16) {
        0 => 0,
        1 => bit(random),
        2 => bit(random) | bit(random),
        3 => !bit(random),
        4 => any >> random.below(64),
        5 => any << random.below(64),
        _ => any,
    }
}
