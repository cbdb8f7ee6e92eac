//! Crossings of two patterns (request 2026-01). The original has no such call: beside the router stand the model written out in Rust, with the original saying
//! what is accepted and matched, and nats-server's notion of patterns that collide.
mod longest;
mod made;
mod one_byte;
mod pair;
mod refused;
mod rows;

use crate::short_lists::patterns;
use crate::tally::{Family, Tally};
use compare::model_crossing::{Matched, Subjects};
use compare::original::{depth_and_tail, MAX_TEXT};
use compare::random::Random;
use pair::Pair;

/// In a turn all subjects are tried for patterns of up to so many tokens, once in so many turns that have such patterns.
const TRIED_TOKENS: u64 = 3;
const TRIED_ONCE_IN: usize = 50;

/// All pairs of all patterns of up to so many tokens out of some, with all short subjects tried.
fn short_pairs(tally: &mut Tally, words: &[&str], most: usize) {
    let patterns = patterns(words, most);
    let subjects = Subjects::for_patterns(&patterns);
    let matched = patterns.iter().map(|pattern| subjects.matched_by(pattern));
    let matched: Vec<Matched> = matched.collect();
    for (first, one) in patterns.iter().zip(&matched) {
        for (second, other) in patterns.iter().zip(&matched) {
            let fewest = subjects.fewest(one, other);
            let pair = Pair::new([first, second]);
            pair.tried(tally, fewest);
            for length in pair.lengths() {
                pair.call(tally, length, fewest);
            }
        }
    }
    let part = format!(
        "crossings of all pairs of {} patterns of up to {most} tokens, with {} subjects tried for each",
        patterns.len(),
        subjects.count()
    );
    tally.report(Family::Crossings, &part);
}

/// What always runs whole.
pub fn run(tally: &mut Tally) {
    rows::run(tally);
    short_pairs(tally, &["a", "x", "ab", "*"], 4);
    short_pairs(tally, &["a", "x", "ab", "xx", "ä", " ", "*"], 3);
    one_byte::run(tally);
    longest::run(tally);
    refused::run(tally);
}

/// One turn: two patterns, in both orders, with outputs that hold the subject, that do not, and of any length. Once in a while all short subjects are tried.
pub fn turn(tally: &mut Tally, random: &mut Random) {
    let patterns = made::pair(random);
    let [first, second] = patterns.each_ref().map(Vec::as_slice);
    for order in [[first, second], [second, first]] {
        let pair = Pair::new(order);
        pair.calls(tally, [random.below(2 * MAX_TEXT)]);
        pair.calls(tally, pair.lengths());
    }
    let short = |pattern: &&[u8]| depth_and_tail(pattern).0 <= TRIED_TOKENS;
    if [first, second].iter().all(short) && random.once_in(TRIED_ONCE_IN) {
        let subjects = Subjects::for_patterns(&patterns);
        let [one, other] = [first, second].map(|pattern| subjects.matched_by(pattern));
        Pair::new([first, second]).tried(tally, subjects.fewest(&one, &other));
    }
}
