//! The rows on a made list, and on the calls that make patterns and subjects.
use crate::row::{row_beside, MODEL};
use crate::yard::{self, Yard};
use crate::{snapshots, tables};
use compare::made;
use compare::model_load::{self, Kind, KINDS, MOST_BYTES};
use std::cell::RefCell;

/// The state from which the list is made, its lines, and the subjects made from the state behind it.
const START: u64 = 1;
const LINES: usize = 1_600;
const SUBJECTS: usize = 500;

/// The texts made in the row on a call.
const MADE: usize = 500;

/// The rows on a made list.
pub fn rows(rounds: usize) {
    let mut state = START;
    let lines = made::lines(LINES, &mut state);
    let subjects = made::texts(Kind::Subject, SUBJECTS, &mut state);
    let name = "1,600 made lines";
    tables::rows(rounds, name, &lines, &subjects);
    let yard = Yard::new(&lines);
    snapshots::verdicts(rounds, name, &yard, &yard::texts(subjects));
}

/// The states from which so many texts are made, one behind the other.
fn states(kind: Kind) -> Vec<u64> {
    let mut state = START;
    let made = (0..MADE).map(|_| {
        let from = state;
        made::text(kind, &mut state);
        from
    });
    made.collect()
}

/// The rows on the calls, beside the model.
pub fn calls(rounds: usize) {
    for kind in KINDS {
        let out = RefCell::new([0; MOST_BYTES]);
        let call = made::call(kind);
        let ours = |&state: &u64| call(state, &mut *out.borrow_mut()).state;
        let model = |&state: &u64| model_load::make(kind, state, &*out.borrow()).0.state;
        let states = states(kind);
        let name = format!("{}, 500 from the start 1 on", made::name(kind));
        let same = states.iter().all(|state| ours(state) == model(state));
        assert!(same, "{name}: the states behind the texts");
        row_beside(MODEL, &name, rounds, &states, &[&ours, &model]);
    }
}
