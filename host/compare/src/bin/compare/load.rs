//! Patterns and subjects made from a start (request 2026-13). The original has no such calls: beside the router stands the model written out in Rust, with the
//! original saying what is accepted, and what lists of them come to.
mod chains;
mod draws;
mod lists;
pub mod met;
mod rows;
mod start;
mod starts;

use crate::tally::Tally;
use compare::random::Random;

/// A turn has a list once in so many.
const LIST_ONCE_IN: usize = 50;

/// What always runs whole.
pub fn run(tally: &mut Tally, random: &mut Random) {
    draws::run(tally);
    rows::run(tally);
    starts::run(tally, random);
    chains::run(tally, random);
    lists::run(tally, random);
}

/// One turn: draws, all lengths of outputs, and calls one behind the other, from a start that may be any. Once in a while a list.
pub fn turn(tally: &mut Tally, random: &mut Random) {
    let start = starts::any(random);
    draws::some(tally, start);
    starts::all_lengths(tally, start);
    chains::short(tally, random, start);
    if random.once_in(LIST_ONCE_IN) {
        lists::any(tally, random);
    }
}
