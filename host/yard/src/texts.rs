//! `yard texts`: what the router makes of the patterns and subjects of a file.
use crate::input;
use crate::shown::shown;
use crate::single::acceptance;
use crate::trouble::{Status, Trouble};
use std::ffi::OsStr;
use std::io::{self, Write};

/// The texts of a file, as patterns and as subjects.
#[derive(Default)]
struct Texts {
    patterns: Vec<Vec<u8>>,
    subjects: Vec<Vec<u8>>,
}

/// The bytes of a text in which `\xHH` stands for the byte with that number.
fn unescape(text: &str) -> Vec<u8> {
    let mut pieces = text.split("\\x");
    let mut bytes = pieces.next().unwrap_or("").as_bytes().to_vec();
    for piece in pieces {
        let number = piece.get(..2).map(|digits| u8::from_str_radix(digits, 16));
        match number {
            Some(Ok(byte)) => {
                bytes.push(byte);
                bytes.extend_from_slice(&piece.as_bytes()[2..]);
            }
            _ => bytes.extend_from_slice(format!("\\x{piece}").as_bytes()),
        }
    }
    bytes
}

/// Reads the lines `pattern TEXT` and `subject TEXT`; lines that are empty or start with `#` are passed over.
fn read(file: &str) -> Result<Texts, String> {
    let mut texts = Texts::default();
    for (index, line) in file.lines().enumerate() {
        if line.is_empty() || line.starts_with('#') {
            continue;
        }
        match line.split_once(' ').unwrap_or((line, "")) {
            ("pattern", text) => texts.patterns.push(unescape(text)),
            ("subject", text) => texts.subjects.push(unescape(text)),
            _ => return Err(format!("line {} is no pattern and no subject", index + 1)),
        }
    }
    Ok(texts)
}

/// A text in quotes.
fn quoted(text: &[u8]) -> String {
    format!("\"{}\"", shown(text))
}

/// The patterns that match a subject.
fn matching<'a>(patterns: &'a [Vec<u8>], subject: &[u8]) -> Vec<&'a [u8]> {
    let matches = |pattern: &&[u8]| router::matches(pattern, subject) == Ok(true);
    patterns.iter().map(Vec::as_slice).filter(matches).collect()
}

fn write(texts: &Texts, out: &mut impl Write) -> io::Result<()> {
    writeln!(out, "Patterns")?;
    for pattern in &texts.patterns {
        let parsed = acceptance(&router::parse(pattern));
        writeln!(out, "  {}: {parsed}", quoted(pattern))?;
    }
    writeln!(out, "\nSubjects")?;
    for subject in &texts.subjects {
        let parsed = acceptance(&router::parse_literal(subject));
        writeln!(out, "  {}: {parsed}", quoted(subject))?;
    }
    writeln!(out, "\nWhich patterns match")?;
    for subject in &texts.subjects {
        if router::parse_literal(subject).is_err() {
            continue;
        }
        let found = matching(&texts.patterns, subject).into_iter();
        let found: Vec<String> = found.map(quoted).collect();
        let found = if found.is_empty() {
            "none".into()
        } else {
            found.join(", ")
        };
        writeln!(out, "  {}: {found}", quoted(subject))?;
    }
    Ok(())
}

pub fn run(name: &OsStr, out: &mut impl Write) -> Result<Status, Trouble> {
    let trouble = |reason: String| Trouble::File {
        name: input::name_of(name),
        reason,
    };
    let bytes = input::file(name)?;
    let file = String::from_utf8(bytes).map_err(|e| trouble(e.to_string()))?;
    write(&read(&file).map_err(trouble)?, out)?;
    Ok(Status::Good)
}
