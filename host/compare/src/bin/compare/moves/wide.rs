//! Moves on tables in which a walk stands at many nodes or finds many targets.
use super::ground::Ground;
use super::subjects::Subjects;
use crate::hostile::{wide_subjects, wide_tables};
use crate::tally::{Family, Tally};
use compare::lists::{runs_of_ten, Line};
use compare::model_move::MOST_SUBJECTS;
use compare::random::Random;
use compare::table::MAX_ENTRIES;

/// Moves of each subject alone, and of each two.
fn all(tally: &mut Tally, ground: &Ground, subjects: &[Vec<u8>]) {
    for one in subjects {
        ground.calls(tally, &Subjects::of(&[one]));
        for other in subjects {
            ground.calls(tally, &Subjects::of(&[one, other]));
        }
    }
}

/// All 1,024 runs, and behind one of them another token: its walk stands at 1,024 nodes, and finds one target.
fn runs(tally: &mut Tally) {
    let mut lines = runs_of_ten("");
    let routed = b"a.a.a.a.a.a.a.a.a.a.b".to_vec();
    lines.push((routed.clone(), 77));
    let ground = Ground::built(tally, &lines);
    ground.calls(tally, &Subjects::of(&[&routed; MOST_SUBJECTS]));
    let [matched, longer, _] = wide_subjects();
    all(tally, &ground, &[routed, matched, longer, b"b.a".to_vec()]);
}

/// As many equal lines as there may be; then one of them is another.
fn equal_lines(tally: &mut Tally) {
    let line = |target| (b"a".to_vec(), target);
    let mut lines: Vec<Line> = (0..MAX_ENTRIES as u32).map(line).collect();
    let subjects = [b"a".to_vec(), b"b".to_vec()];
    let equal = Ground::built(tally, &lines);
    all(tally, &equal, &subjects);
    lines[1].0 = b"b".to_vec();
    let one_other = Ground::built(tally, &lines);
    all(tally, &one_other, &subjects);
}

/// Every node of the runs says that all targets are its own: lists of over a million.
fn longest_lists(tally: &mut Tally) {
    let ground = Ground::built(tally, &runs_of_ten("")).changed(|ground| {
        for node in 0..ground.snapshot.nodes {
            *ground.word(node, 4) = 0;
            *ground.word(node, 5) = ground.snapshot.targets as u32;
        }
    });
    all(tally, &ground, &wide_subjects()[..1]);
}

pub fn run(tally: &mut Tally, random: &mut Random) {
    runs(tally);
    equal_lines(tally);
    longest_lists(tally);
    for table in wide_tables(tally, random) {
        all(tally, &Ground::lent(&table), &wide_subjects());
    }
    let part = "moves on tables with frontiers around 1,024, and with the longest lists";
    tally.report(Family::Moves, part);
}
