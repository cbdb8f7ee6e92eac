//! The rows on whole moves. The original has no such call: its verdicts on one subject after the other stand beside them, until one is not Routed, with the targets
//! gathered in an array; and so do the router's own.
use crate::row::{lines, row_beside, ONE_BY_ONE};
use crate::yard::{Ours, Yard};
use compare::model_move::MOST_SUBJECTS;
use compare::original_calls;
use router::raw;
use std::cell::RefCell;

/// The subjects of a move in the row on short ones.
const FEW: usize = 8;

/// A subject that no line of the yard list matches.
const NO_STREAM: &str = "nowhere";

/// The subjects of a move, one behind the other, and each of them.
struct Move {
    bytes: Vec<u8>,
    spans: Vec<usize>,
    subjects: Vec<String>,
}

impl Move {
    fn new(subjects: &[String]) -> Move {
        let mut bytes = Vec::new();
        let mut spans = Vec::new();
        for subject in subjects {
            spans.extend([bytes.len(), subject.len()]);
            bytes.extend_from_slice(subject.as_bytes());
        }
        Move {
            bytes,
            spans,
            subjects: subjects.to_vec(),
        }
    }

    /// The targets by one verdict after the other, kind and value. How many there are before one is not Routed.
    fn one_by_one(&self, out: &mut [u32], verdict: impl Fn(&str) -> (u64, u64)) -> u64 {
        for (place, subject) in self.subjects.iter().enumerate() {
            let (kind, value) = verdict(subject);
            if kind != 1 {
                return place as u64;
            }
            out[place] = value as u32;
        }
        self.subjects.len() as u64
    }
}

/// One row on moves. Each call gives how many subjects are Routed before one is not.
fn row(name: &str, rounds: usize, yard: &Yard, moves: &[Move]) {
    let ours = RefCell::new(Ours::new(&yard.table, 1));
    let snapshot = yard.snapshot();
    let outs = [0; 3].map(|_| RefCell::new([0; MOST_SUBJECTS]));
    let whole = |lent: &Move| {
        let (ours, out) = (ours.borrow(), &mut *outs[0].borrow_mut());
        raw::whole_move(ours.snapshot, &ours.area, &lent.bytes, &lent.spans, out).second
    };
    let theirs = |lent: &Move| {
        lent.one_by_one(&mut *outs[1].borrow_mut(), |subject| {
            let told = original_calls::resolve_single_home(&snapshot, subject.as_bytes());
            (told.first, told.second)
        })
    };
    let one_by_one = |lent: &Move| {
        lent.one_by_one(&mut *outs[2].borrow_mut(), |subject| {
            let told = ours.borrow_mut().verdict(subject);
            (told.kind, told.value)
        })
    };
    for lent in moves {
        let routed = [whole(lent), theirs(lent), one_by_one(lent)];
        assert_eq!(routed, [routed[0]; 3], "{name}: the subjects routed");
        let [ours, others @ ..] = outs.each_ref().map(|out| *out.borrow());
        assert_eq!([ours; 2], others, "{name}: their targets");
    }
    let calls: [&dyn Fn(&Move) -> u64; 3] = [&whole, &theirs, &one_by_one];
    row_beside(ONE_BY_ONE, name, rounds, moves, &calls);
}

/// Moves of routed subjects, and such as their first subject stops.
pub fn rows(rounds: usize, yard: &Yard, subjects: &[String]) {
    let mut ours = Ours::new(&yard.table, 1);
    let mut routed = subjects.to_vec();
    routed.retain(|subject| ours.verdict(subject).kind == 1);
    for count in [FEW, MOST_SUBJECTS] {
        let name = format!("whole move of {count} subjects, {}", lines(yard.count));
        let moves: Vec<Move> = routed.chunks_exact(count).map(Move::new).collect();
        row(&name, rounds, yard, &moves);
    }
    let first = [String::from(NO_STREAM)];
    assert_eq!(ours.verdict(&first[0]).kind, 0, "no line matches it");
    let rests = routed.chunks_exact(MOST_SUBJECTS - 1);
    let moves: Vec<Move> = rests
        .map(|rest| Move::new(&[&first, rest].concat()))
        .collect();
    let name = format!("the same of {MOST_SUBJECTS}, stopped by the first");
    row(&name, rounds, yard, &moves);
}
