//! What a person should look at in a list though the router accepts it.
use crate::json::{array, Object};
use crate::list::Line;
use crate::shown::{counted, shown};
use std::collections::BTreeMap;
use std::io::{self, Write};

/// The most of one kind that are shown.
const MOST: usize = 20;

/// A pattern and the lines that have it.
struct Noted<'f> {
    pattern: &'f [u8],
    lines: Vec<usize>,
}

impl Noted<'_> {
    fn numbers(&self) -> Vec<String> {
        self.lines.iter().map(usize::to_string).collect()
    }

    fn json(&self) -> String {
        Object::default()
            .bytes("pattern", self.pattern)
            .field("lines", array(self.numbers()))
            .end()
    }
}

/// Each pattern with its lines, in the order of the list.
fn by_pattern<'f>(lines: &[Line<'f>]) -> Vec<Noted<'f>> {
    let mut found: BTreeMap<&[u8], Vec<usize>> = BTreeMap::new();
    for line in lines {
        found.entry(line.pattern).or_default().push(line.number);
    }
    let noted = found
        .into_iter()
        .map(|(pattern, lines)| Noted { pattern, lines });
    let mut noted: Vec<Noted<'_>> = noted.collect();
    noted.sort_by_key(|noted| noted.lines[0]);
    noted
}

/// The notes on a list.
pub struct Notes<'f> {
    /// Patterns on several lines.
    repeated: Vec<Noted<'f>>,
    /// Patterns with a blank inside: a second number on a line, or a name that has one.
    blanks: Vec<Noted<'f>>,
}

fn write_noted(out: &mut impl Write, title: &str, noted: &[Noted<'_>]) -> io::Result<()> {
    if noted.is_empty() {
        return Ok(());
    }
    writeln!(
        out,
        "\nNote: {}",
        title.replace("{}", &counted(noted.len(), "pattern"))
    )?;
    for note in noted.iter().take(MOST) {
        let word = if note.lines.len() == 1 {
            "line"
        } else {
            "lines"
        };
        let (pattern, numbers) = (shown(note.pattern), note.numbers().join(", "));
        writeln!(out, "  {word} {numbers}: {pattern}")?;
    }
    if noted.len() > MOST {
        writeln!(out, "  and {} more", noted.len() - MOST)?;
    }
    Ok(())
}

impl<'f> Notes<'f> {
    pub fn on(lines: &[Line<'f>]) -> Notes<'f> {
        let blank = |noted: &Noted<'_>| noted.pattern.contains(&b' ');
        let several = |noted: &Noted<'_>| noted.lines.len() > 1;
        Notes {
            repeated: by_pattern(lines).into_iter().filter(several).collect(),
            blanks: by_pattern(lines).into_iter().filter(blank).collect(),
        }
    }

    pub fn write(&self, out: &mut impl Write) -> io::Result<()> {
        let repeated = "{} on several lines; every order that matches is Ambiguous";
        write_noted(out, repeated, &self.repeated)?;
        let blanks = "{} with a blank inside; is it part of a name, or are there two numbers?";
        write_noted(out, blanks, &self.blanks)
    }

    /// The notes as fields of an object.
    pub fn json(&self, object: Object) -> Object {
        object
            .field("repeated", array(self.repeated.iter().map(Noted::json)))
            .field("blanks", array(self.blanks.iter().map(Noted::json)))
    }
}
