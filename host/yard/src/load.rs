//! `yard load`: a heavy list that is drawn from a start, and subjects that are drawn behind it. Both are the same wherever the start is the same.
use crate::command_line::Options;
use crate::json::Object;
use crate::list::Line;
use crate::progress::{Progress, Writes};
use crate::trouble::{tell_refused, Status, Trouble};
use router::{Refusal, MADE_TEXT};
use std::io::{self, Write};

/// Hands over each line of the list as it is drawn. Gives the state that the last one gave back.
fn each_line(
    start: u64,
    lines: usize,
    mut drawn: impl FnMut(&Line<'_>) -> io::Result<()>,
) -> Result<u64, Trouble> {
    let (mut state, mut room) = (start, [0; MADE_TEXT]);
    for place in 1..=lines {
        let made = router::make_pattern(state, &mut room)?;
        drawn(&Line {
            // The list begins with a comment.
            number: place + 1,
            pattern: made.text,
            target: place as u32,
        })?;
        state = made.state;
    }
    Ok(state)
}

/// Hands over each subject as it is drawn.
fn each_subject(
    start: u64,
    subjects: usize,
    mut drawn: impl FnMut(&[u8]) -> io::Result<()>,
) -> Result<(), Trouble> {
    let (mut state, mut room) = (start, [0; MADE_TEXT]);
    let mut progress = Progress::of("subjects", Writes::AsItGoes).out_of(subjects);
    for done in 1..=subjects {
        let made = router::make_subject(state, &mut room)?;
        drawn(made.text)?;
        state = made.state;
        progress.at(done);
    }
    Ok(())
}

fn write_list(start: u64, lines: usize, json: bool, out: &mut impl Write) -> Result<(), Trouble> {
    if !json {
        writeln!(out, "# yard load {start} {lines}")?;
    }
    each_line(start, lines, |line| {
        if json {
            return writeln!(out, "{}", line.json().end());
        }
        out.write_all(line.pattern)?;
        writeln!(out, " {}", line.target)
    })?;
    Ok(())
}

/// Writes the subjects that are drawn behind the list's last line.
fn write_subjects(
    start: u64,
    lines: usize,
    subjects: usize,
    json: bool,
    out: &mut impl Write,
) -> Result<(), Trouble> {
    let behind = each_line(start, lines, |_| Ok(()))?;
    if !json {
        writeln!(out, "# yard load {start} {lines} --subjects {subjects}")?;
    }
    each_subject(behind, subjects, |subject| {
        if json {
            let object = Object::default().bytes("subject", subject);
            return writeln!(out, "{}", object.end());
        }
        out.write_all(subject)?;
        out.write_all(b"\n")
    })
}

/// Says that a start is refused. For programs it is a text, since many of them hold no number of 64 bits.
fn tell_start(start: u64, refusal: &Refusal, json: bool, out: &mut impl Write) -> io::Result<()> {
    if json {
        let object = Object::default().text("start", &start.to_string());
        return writeln!(out, "{}", object.refusal(refusal).end());
    }
    tell_refused("start", refusal);
    Ok(())
}

pub fn run(
    start: u64,
    lines: usize,
    options: &Options,
    out: &mut impl Write,
) -> Result<Status, Trouble> {
    // The router is asked before anything is written, and even where nothing is to be drawn.
    if let Err(refusal) = router::make_pattern(start, &mut [0; MADE_TEXT]) {
        tell_start(start, &refusal, options.json, out)?;
        return Ok(Status::Refused);
    }
    match options.subjects {
        None => write_list(start, lines, options.json, out)?,
        Some(subjects) => write_subjects(start, lines, subjects, options.json, out)?,
    }
    Ok(Status::Good)
}
