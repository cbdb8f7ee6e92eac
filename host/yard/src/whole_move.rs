//! `yard move`: where all orders of a move go, or which one holds them up.
use crate::answers::{self, Answer};
use crate::command_line::{Options, Orders};
use crate::desk::{at_desk, Desk};
use crate::input::{InputLine, Subjects};
use crate::json::{array, Object};
use crate::shown::refused;
use crate::trouble::{Status, Trouble};
use router::{Refusal, Resolution, WholeMove, MAX_MOVE};
use std::io::Write;

/// What is said of every move that is not routed.
const NONE_GOES_OUT: &str = "no order of the move goes out";

/// Subjects from standard input. Of too many, no more are read than show it.
fn read_subjects(out: &mut impl Write) -> Result<Vec<InputLine>, Trouble> {
    let mut input = Subjects::from_input();
    let mut subjects = Vec::new();
    while subjects.len() <= MAX_MOVE {
        let Some(subject) = input.next(out)? else {
            break;
        };
        subjects.push(subject);
    }
    Ok(subjects)
}

/// The texts of subjects one behind the other; where each starts, and how long it is.
fn together(subjects: &[InputLine]) -> (Vec<u8>, Vec<[usize; 2]>) {
    let (mut bytes, mut spans) = (Vec::new(), Vec::new());
    for subject in subjects {
        spans.push([bytes.len(), subject.text.len()]);
        bytes.extend_from_slice(&subject.text);
    }
    (bytes, spans)
}

/// The last line on a move that is routed.
fn closing(orders: usize) -> String {
    match orders {
        0 => "move of 0: there is no order in it\n".into(),
        _ => format!("\nmove of {orders}: every order is routed\n"),
    }
}

/// Every order is routed, each to its target.
fn tell_routed(
    desk: &mut Desk<'_, '_>,
    subjects: &[InputLine],
    targets: &[u32],
    options: &Options,
    out: &mut impl Write,
) -> Result<Status, Trouble> {
    let mut routed = Vec::new();
    for (subject, &target) in subjects.iter().zip(targets) {
        let order = Ok(desk.explained(&subject.text, Resolution::Routed(target))?);
        if options.json {
            routed.push(answers::json(Object::default(), subject, &order).end());
        } else {
            answers::write(out, subject, &order, options.verbose)?;
        }
    }
    if options.json {
        let object = Object::default().field("routed", array(routed));
        writeln!(out, "{}", object.end())?;
    } else {
        out.write_all(closing(targets.len()).as_bytes())?;
    }
    Ok(Status::Good)
}

/// Why an order holds up its move.
fn reason(answer: &Answer<'_, '_>) -> String {
    match answer.as_ref().map(|order| order.resolution) {
        Ok(Resolution::Ambiguous { matched }) => format!("{matched} lines match"),
        Ok(_) => "no line matches".into(),
        Err(_) => "its subject is refused".into(),
    }
}

/// One order, by its place, holds up the move.
fn tell_held_up(
    subjects: &[InputLine],
    place: usize,
    answer: &Answer<'_, '_>,
    options: &Options,
    out: &mut impl Write,
) -> Result<Status, Trouble> {
    let (subject, number, orders) = (&subjects[place], place + 1, subjects.len());
    if options.json {
        let name = if answer.is_ok() { "stopped" } else { "refused" };
        let order = answers::json(Object::default().field("place", number), subject, answer);
        let object = Object::default().field(name, order.end());
        writeln!(out, "{}", object.end())?;
    } else {
        answers::write(out, subject, answer, options.verbose)?;
        let reason = reason(answer);
        writeln!(
            out,
            "\nheld up at order {number} of {orders}: {reason}; {NONE_GOES_OUT}"
        )?;
    }
    Ok(Status::NotAll)
}

/// The move itself is refused, whatever its orders are.
fn tell_refused(
    refusal: &Refusal,
    options: &Options,
    out: &mut impl Write,
) -> Result<Status, Trouble> {
    if options.json {
        let object = Object::default().refusal(refusal);
        let object = Object::default().field("refused", object.end());
        writeln!(out, "{}", object.end())?;
    } else {
        writeln!(out, "the move is {}; {NONE_GOES_OUT}", refused(refusal))?;
    }
    Ok(Status::NotAll)
}

/// Says what becomes of a move, by the router's answer on the whole of it.
fn answer(
    desk: &mut Desk<'_, '_>,
    subjects: &[InputLine],
    options: &Options,
    out: &mut impl Write,
) -> Result<Status, Trouble> {
    let (bytes, spans) = together(subjects);
    let mut room = [0; MAX_MOVE];
    match desk.whole_move(&bytes, &spans, &mut room) {
        Ok(WholeMove::Routed(targets)) => tell_routed(desk, subjects, targets, options, out),
        Ok(WholeMove::Stopped { place, resolution }) => {
            let order = desk.explained(&subjects[place].text, resolution)?;
            tell_held_up(subjects, place, &Ok(order), options, out)
        }
        Err(refusal @ (Refusal::Subject { place, .. } | Refusal::SubjectOutside { place })) => {
            tell_held_up(subjects, place, &Err(refusal), options, out)
        }
        Err(refusal) => tell_refused(&refusal, options, out),
    }
}

pub fn run(orders: &Orders, options: &Options, out: &mut impl Write) -> Result<Status, Trouble> {
    at_desk(&orders.list, options.json, out, |mut desk, out| {
        let given = orders.subjects.iter().map(|text| InputLine::whole(text));
        let mut subjects: Vec<InputLine> = given.collect();
        if subjects.is_empty() {
            subjects = read_subjects(out)?;
        }
        answer(&mut desk, &subjects, options, out)
    })
}
