//! Calls one behind the other, each lent the state that the last one handed back.
use super::met::MOST_LENT;
use super::start::Start;
use crate::tally::{Family, Tally};
use compare::model_load::{KINDS, MOST_BYTES};
use compare::random::Random;

/// So many calls from each of some starts.
const LONG: usize = 50_000;
const STARTS: [u64; 6] = [1, 2, 88_172_645_463_325_252, 1 << 32, 1 << 63, u64::MAX];

/// So many calls in a turn.
const SHORT: usize = 30;

/// Patterns and subjects mixed, once in a while with an output that may be too short.
fn chain(tally: &mut Tally, random: &mut Random, start: u64, calls: usize) {
    let mut state = start;
    for _ in 0..calls {
        let kind = KINDS[random.below(KINDS.len())];
        let length = match random.below(3) {
            0 => random.below(MOST_LENT + 1),
            1 => MOST_BYTES,
            _ => MOST_LENT,
        };
        state = Start::new(state).call(tally, kind, length);
    }
}

/// A few calls.
pub fn short(tally: &mut Tally, random: &mut Random, start: u64) {
    chain(tally, random, start, SHORT);
}

pub fn run(tally: &mut Tally, random: &mut Random) {
    for start in STARTS {
        chain(tally, random, start, LONG);
    }
    let part = "chains of 50,000 made texts from six starts, some with too short an output";
    tally.report(Family::Made, part);
}
