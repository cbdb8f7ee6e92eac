//! Whole moves routed together (request 2026-05). The original has no such call: beside the router stand the model written out in Rust and, on tables that a build
//! made, the original's verdicts on one subject after the other.
mod among;
mod call;
mod counts;
mod drawn;
mod ground;
pub mod met;
mod short;
mod sizes;
mod spans;
mod subjects;
mod wide;
mod yard;

use crate::tally::Tally;
pub use among::turn;
pub use call::{call, NAME};
use compare::lists::Line;
use compare::random::Random;
pub use drawn::{routed_by, whole_move};
pub use subjects::Subjects;

/// Lines that are written out.
fn lines(lines: &[(&str, u32)]) -> Vec<Line> {
    let line = |&(pattern, target): &(&str, u32)| (pattern.into(), target);
    lines.iter().map(line).collect()
}

/// What always runs whole.
pub fn run(tally: &mut Tally, random: &mut Random) {
    short::run(tally);
    sizes::run(tally);
    spans::run(tally);
    counts::run(tally);
    wide::run(tally, random);
    yard::run(tally, random);
}
