//! Draws one behind the other.
use crate::tally::{Family, Tally};
use compare::model_load::{draw, draw_by_bits};
use router::raw;

/// Marsaglia's own start, and the draws from it.
const KNOWN: [u64; 4] = [
    88_172_645_463_325_252,
    8_748_534_153_485_358_512,
    3_040_900_993_826_735_515,
    3_453_997_556_048_239_312,
];

/// So many draws from each of some starts.
const LONG: usize = 250_000;
const STARTS: [u64; 4] = [1, KNOWN[0], 1 << 63, u64::MAX];

/// So many draws in a turn.
const SHORT: usize = 10;

/// So many draws, each against the model's and against the same bit by bit; 0 is drawn from 0 alone.
fn draws(tally: &mut Tally, start: u64, count: usize) {
    let mut state = start;
    for _ in 0..count {
        let inputs = || format!("  on {state}\n");
        let next = raw::draw(state);
        tally.compare_on("draw", inputs, next, draw(state));
        tally.compare_on("draw bit by bit", inputs, next, draw_by_bits(state));
        tally.compare_on("draw of 0", inputs, next == 0, state == 0);
        state = next;
    }
}

/// Some draws from a start.
pub fn some(tally: &mut Tally, start: u64) {
    draws(tally, start, SHORT);
}

pub fn run(tally: &mut Tally) {
    for pair in KNOWN.windows(2) {
        let inputs = || format!("  on {}\n", pair[0]);
        tally.compare_on("draw as known", inputs, raw::draw(pair[0]), pair[1]);
    }
    for bit in 0..64 {
        draws(tally, 1 << bit, SHORT);
    }
    draws(tally, 0, 1);
    for start in STARTS {
        draws(tally, start, LONG);
    }
    tally.report(
        Family::Made,
        "draws as known, from each bit and from 0, and four runs of 250,000",
    );
}
