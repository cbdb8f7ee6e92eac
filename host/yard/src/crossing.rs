//! `yard crossing`: which lines of a list one order can meet, which of them a new line would meet, and whether two patterns have an order in common.
use crate::command_line::Options;
use crate::json::Object;
use crate::list::Line;
use crate::list_file::ListFile;
use crate::meetings::Meetings;
use crate::pairs;
use crate::progress::Writes;
use crate::rows::{self, Row};
use crate::shown::{counted, grouped, shown};
use crate::trouble::{complain, tell_refused, Status, Trouble};
use router::{Refusal, MAX_TEXT};
use std::ffi::OsStr;
use std::io::{self, Write};
use std::path::Path;

const EXPLAINED: &str = "
An order that meets both lines is Ambiguous and goes nowhere, whatever their targets. Each line stands with
one order as an example: no order that both match is shorter, and further lines may match it too.

";

/// Whether a word of the command line means a list: standard input, a path, or a file that is there.
fn names_list(word: &OsStr) -> bool {
    let path = Path::new(word);
    let is_path = word.as_encoded_bytes().contains(&b'/');
    word == "-" || is_path || (path.exists() && !path.is_dir())
}

fn status(crossing: bool) -> Status {
    if crossing {
        Status::NotAll
    } else {
        Status::Good
    }
}

/// All pairs of lines of a list that one order can meet.
fn of_list(
    name: &str,
    lines: &[Line<'_>],
    options: &Options,
    out: &mut impl Write,
) -> Result<Status, Trouble> {
    if !options.json {
        let meetings = Meetings::of(lines)?;
        meetings.write(name, options.verbose, out)?;
        return Ok(status(meetings.count.total() > 0));
    }
    let count = pairs::each(lines, Writes::AsItGoes, |pair| {
        writeln!(out, "{}", pair.json())
    })?;
    let object = Object::default()
        .bytes("list", name.as_bytes())
        .field("entries", lines.len());
    writeln!(out, "{}", count.json(object).end())?;
    Ok(status(count.total() > 0))
}

/// The lines that a new line meets, each with an order that shows it.
fn met<'l, 'f>(
    lines: &'l [Line<'f>],
    pattern: &[u8],
) -> Result<Vec<(&'l Line<'f>, Vec<u8>)>, Refusal> {
    let mut room = [0; MAX_TEXT];
    let mut met = Vec::new();
    for line in lines {
        if let Some(order) = router::crossing(line.pattern, pattern, &mut room)? {
            met.push((line, order.to_vec()));
        }
    }
    Ok(met)
}

fn write_met(
    out: &mut impl Write,
    name: &str,
    pattern: &[u8],
    lines: usize,
    met: &[(&Line<'_>, Vec<u8>)],
) -> io::Result<()> {
    let (pattern, lines) = (shown(pattern), counted(lines, "line"));
    let number = match met.len() {
        0 => "none".into(),
        some => grouped(some),
    };
    writeln!(
        out,
        "{name}: a new line `{pattern}` would meet {number} of the list's {lines}"
    )?;
    if met.is_empty() {
        return Ok(());
    }
    out.write_all(EXPLAINED.as_bytes())?;
    let rows = met.iter().map(|(line, order)| Row::of_line(line, order));
    rows::write(out, 2, &rows.collect::<Vec<_>>())
}

/// The lines of a list that a new line with some pattern would meet.
fn of_new_line(
    name: &str,
    lines: &[Line<'_>],
    pattern: &[u8],
    options: &Options,
    out: &mut impl Write,
) -> Result<Status, Trouble> {
    let object = Object::default()
        .bytes("list", name.as_bytes())
        .bytes("pattern", pattern);
    if let Err(refusal) = router::parse(pattern) {
        if options.json {
            writeln!(out, "{}", object.refusal(&refusal).end())?;
        } else {
            tell_refused("pattern", &refusal);
        }
        return Ok(Status::Refused);
    }
    let met = met(lines, pattern)?;
    if options.json {
        for (line, order) in &met {
            writeln!(out, "{}", line.json().bytes("order", order).end())?;
        }
        let object = object.field("entries", lines.len()).field("met", met.len());
        writeln!(out, "{}", object.end())?;
    } else {
        write_met(out, name, pattern, lines.len(), &met)?;
    }
    Ok(status(!met.is_empty()))
}

/// Which of two patterns is refused, if one is.
fn refused_of(first: &[u8]) -> &'static str {
    if router::parse(first).is_err() {
        "first"
    } else {
        "second"
    }
}

/// What two patterns have in common, for programs.
fn patterns_json(first: &[u8], second: &[u8], found: &Result<Option<&[u8]>, Refusal>) -> String {
    let object = Object::default()
        .bytes("first", first)
        .bytes("second", second);
    match found {
        Ok(None) => object.field("crossing", false),
        Ok(Some(order)) => object.field("crossing", true).bytes("order", order),
        Err(refusal) => object.text("refused", refused_of(first)).refusal(refusal),
    }
    .end()
}

/// An order that two patterns both match, or that there is none.
fn of_patterns(
    first: &[u8],
    second: &[u8],
    options: &Options,
    out: &mut impl Write,
) -> Result<Status, Trouble> {
    let mut room = [0; MAX_TEXT];
    let found = router::crossing(first, second, &mut room);
    let both = format!("both `{}` and `{}`", shown(first), shown(second));
    if options.json {
        writeln!(out, "{}", patterns_json(first, second, &found))?;
    } else {
        match &found {
            Ok(None) => writeln!(out, "No order can meet {both}.")?,
            Ok(Some(order)) => writeln!(
                out,
                "An order can meet {both}, and is Ambiguous where they stand in one list:\n    {}",
                shown(order)
            )?,
            Err(refusal) => tell_refused(&format!("{} pattern", refused_of(first)), refusal),
        }
    }
    Ok(match found {
        Ok(order) => status(order.is_some()),
        Err(_) => Status::Refused,
    })
}

/// Keeps a list that is misplaced or misspelt from passing for a pattern which no order meets.
fn check_words(first: &OsStr, second: &OsStr) -> Result<(), Trouble> {
    if names_list(second) {
        return Err(Trouble::Usage(
            "the list stands before the pattern; where both words are patterns, say --patterns"
                .into(),
        ));
    }
    let first = first.as_encoded_bytes();
    if router::parse_literal(first).is_ok() {
        let name = shown(first);
        complain(&format!("yard: there is no file {name}, so it is taken for a pattern; where it is one, say --patterns\n"));
    }
    Ok(())
}

fn with_patterns(
    first: &OsStr,
    second: &OsStr,
    options: &Options,
    out: &mut impl Write,
) -> Result<Status, Trouble> {
    if !options.patterns {
        check_words(first, second)?;
    }
    let (first, second) = (first.as_encoded_bytes(), second.as_encoded_bytes());
    of_patterns(first, second, options, out)
}

fn with_list(
    list: &OsStr,
    pattern: Option<&OsStr>,
    options: &Options,
    out: &mut impl Write,
) -> Result<Status, Trouble> {
    let file = ListFile::read(list)?;
    let (name, loaded) = (&file.name, file.load());
    if loaded.tables.is_none() {
        loaded.tell_refusal(name, options.json, out)?;
        return Ok(Status::Refused);
    }
    let (lines, pattern) = (&loaded.lines, pattern.map(OsStr::as_encoded_bytes));
    match pattern {
        Some(pattern) => of_new_line(name, lines, pattern, options, out),
        None => of_list(name, lines, options, out),
    }
}

pub fn run(
    first: &OsStr,
    second: Option<&OsStr>,
    options: &Options,
    out: &mut impl Write,
) -> Result<Status, Trouble> {
    match second {
        Some(second) if options.patterns || !names_list(first) => {
            with_patterns(first, second, options, out)
        }
        _ => with_list(first, second, options, out),
    }
}
