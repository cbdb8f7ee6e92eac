//! One whole move on all sides.
use super::met::Event;
use crate::output::Output;
use crate::tally::Tally;
use compare::model_move::{Asked, Due, MOST_SUBJECTS};
use compare::original_calls;
use compare::table::MAX_FRONTIER;
use oracle::sublist::SublistSnapshot;
use router::raw::{self, Answer};

pub const NAME: &str = "whole_move";

fn shown(asked: Asked, places: usize) -> String {
    let (snapshot, words) = (asked.snapshot, asked.area.len());
    let (bytes, spans) = (asked.bytes.escape_ascii(), asked.spans);
    format!("  {snapshot:?}, {words} words\n  whole_move of {spans:?} in \"{bytes}\", {places} places\n")
}

/// What the plain verdict makes of a subject, lent output enough. "For a list of one it agrees with the plain verdict"
fn plain(asked: Asked, subject: &[u8]) -> Due {
    let verdict = |places| {
        let out = &mut vec![0; places];
        raw::resolve_single_home(asked.snapshot, asked.area, subject, out)
    };
    let mut told = verdict(asked.area.len().max(MAX_FRONTIER));
    if told.number == 21 {
        told = verdict(told.kind as usize);
    }
    let (place, kind, value) = (0, told.kind, told.value);
    match told.number {
        0 if kind == 1 => Due::Routed(vec![value as u32]),
        0 => Due::Stopped { place, kind, value },
        19 => Due::NoTable,
        number => Due::Refused {
            place,
            refusal: Answer {
                number,
                first: kind,
                second: value,
                third: 0,
            },
        },
    }
}

/// What others make of the subjects one by one: the original, if its snapshot has the same table, and for a single subject the plain verdict. Neither knows
/// of 12 and 22.
fn told_elsewhere(asked: Asked, theirs: Option<&SublistSnapshot<u32>>) -> Vec<(&'static str, Due)> {
    let few = asked.count() <= MOST_SUBJECTS;
    let Some(subjects) = asked.inside().filter(|_| few) else {
        return Vec::new();
    };
    let mut told = Vec::new();
    if let Some(theirs) = theirs {
        let verdicts = original_calls::whole_move(theirs, &subjects);
        told.push(("the original's verdicts one by one", verdicts));
    }
    if let [subject] = subjects[..] {
        told.push(("the plain verdict", plain(asked, subject)));
    }
    told
}

/// One move with an output of so many places: compared with the model to the last place of the output and of its margins, and with what others make of its
/// subjects. What is lent to be read stays as it was. `before` tells what was done before, where there is a difference.
pub fn call(
    tally: &mut Tally,
    asked: Asked,
    places: usize,
    theirs: Option<&SublistSnapshot<u32>>,
    before: impl Fn() -> String,
) {
    let inputs = || before() + &shown(asked, places);
    let Asked {
        snapshot,
        area,
        bytes,
        spans,
    } = asked;
    let lent = (area.to_vec(), bytes.to_vec(), spans.to_vec());
    let due = Due::new(asked, places);
    let mut out = Output::words(places);
    let ours = raw::whole_move(snapshot, area, bytes, spans, out.lent());
    tally.compare_on(NAME, inputs, ours, due.answer());
    let kept = [lent.0 == area, lent.1 == bytes, lent.2 == spans];
    tally.compare_on("area, bytes and spans are kept", inputs, kept, [true; 3]);
    for (about, told) in told_elsewhere(asked, theirs) {
        let told = told.within(places);
        let targets = &out.after()[..told.written().len()];
        let (ours, told) = ((ours, targets), (told.answer(), told.written()));
        tally.compare_on(about, inputs, ours, told);
    }
    let [after, due_after] = out.with_margins(due.written());
    tally.compare_on("whole_move's output", inputs, after, due_after);
    tally.called(NAME, due.answer().number);
    let event = Event::new(&due, asked.count(), places);
    tally.seen.moves.event(event);
}
