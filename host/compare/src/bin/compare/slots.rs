//! Caches made by hand: what their slots say of themselves, in every place of a run of slots that the router looks at together, and behind the last one.
//! The original is not asked, for its slots cannot be lent.
mod bad;
mod drawn;
mod hand;
mod lengths;
mod lists;
mod marks;
pub mod met;
mod most;
mod pairs;
mod places;
mod short;
mod stamps;

use crate::tally::Tally;
use compare::random::Random;
pub use drawn::turn;
use hand::Ground;

/// What always runs whole.
pub fn run(tally: &mut Tally, random: &mut Random) {
    let ground = Ground::new(tally);
    places::run(tally, random, &ground);
    pairs::run(tally, random, &ground);
    bad::run(tally, random, &ground);
    short::run(tally, random, &ground);
    marks::run(tally, random, &ground);
    lengths::run(tally, random, &ground);
    lists::run(tally, random, &ground);
    stamps::run(tally, random, &ground);
    most::run(tally, random);
}
