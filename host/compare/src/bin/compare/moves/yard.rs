//! Moves on the example list of a whole yard, and on a made list.
use super::drawn::{routed_by, whole_move};
use super::ground::Ground;
use crate::tally::{Family, Tally};
use compare::lists::{self, Line};
use compare::made;
use compare::model::Tree;
use compare::random::Random;

/// The lines of the made list, and the moves on each of the two.
const MADE: usize = 1_600;
const MOVES: usize = 2_000;

/// Drawn moves of subjects for the lines of a list.
fn moves(tally: &mut Tally, random: &mut Random, lines: &[Line]) {
    let ground = Ground::built(tally, lines);
    let subjects = lines
        .iter()
        .map(|(pattern, _)| lists::subject_of(pattern, random));
    let subjects: Vec<Vec<u8>> = subjects.collect();
    let routed = routed_by(&Tree::new(lines), &subjects);
    for _ in 0..MOVES {
        let (subjects, places) = whole_move(random, &subjects, &routed);
        ground.call(tally, &subjects, places);
    }
}

pub fn run(tally: &mut Tally, random: &mut Random) {
    moves(tally, random, &lists::example());
    moves(tally, random, &made::lines(MADE, &mut 1));
    let part = "2,000 moves on the example list, and as many on a made list";
    tally.report(Family::Moves, part);
}
