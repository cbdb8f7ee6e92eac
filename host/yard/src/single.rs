//! `yard parse` and `yard matches`: single texts.
use crate::command_line::Options;
use crate::json::Object;
use crate::shown::{counted, refused, shown};
use crate::trouble::{tell_refused, Status, Trouble};
use router::Refusal;
use std::io::Write;

/// Whether a text is accepted, in words.
pub fn acceptance(parsed: &Result<usize, Refusal>) -> String {
    match parsed {
        Ok(tokens) => format!("accepted, {}", counted(*tokens, "token")),
        Err(refusal) => refused(refusal),
    }
}

fn acceptance_json(parsed: &Result<usize, Refusal>) -> String {
    match parsed {
        Ok(tokens) => Object::default().field("tokens", tokens).end(),
        Err(refusal) => Object::default().refusal(refusal).end(),
    }
}

/// Each text as a pattern and as a subject. Every subject is a pattern too, so the status is by that.
pub fn parse(
    texts: &[Vec<u8>],
    options: &Options,
    out: &mut impl Write,
) -> Result<Status, Trouble> {
    let mut status = Status::Good;
    for text in texts {
        let (pattern, subject) = (router::parse(text), router::parse_literal(text));
        if pattern.is_err() {
            status = Status::NotAll;
        }
        if options.json {
            let object = Object::default()
                .bytes("text", text)
                .field("pattern", acceptance_json(&pattern))
                .field("subject", acceptance_json(&subject));
            writeln!(out, "{}", object.end())?;
        } else {
            writeln!(out, "{}", shown(text))?;
            writeln!(out, "    as a pattern: {}", acceptance(&pattern))?;
            writeln!(out, "    as a subject: {}", acceptance(&subject))?;
        }
    }
    Ok(status)
}

/// Whether a pattern matches a subject.
pub fn matches(
    pattern: &[u8],
    subject: &[u8],
    options: &Options,
    out: &mut impl Write,
) -> Result<Status, Trouble> {
    let matched = router::matches(pattern, subject);
    let object = Object::default()
        .bytes("pattern", pattern)
        .bytes("subject", subject);
    let (text, object, status) = match &matched {
        Ok(true) => ("matches\n", object.field("matches", true), Status::Good),
        Ok(false) => (
            "does not match\n",
            object.field("matches", false),
            Status::NotAll,
        ),
        Err(refusal) => ("", object.refusal(refusal), Status::Refused),
    };
    if options.json {
        writeln!(out, "{}", object.end())?;
    } else if let Err(refusal) = &matched {
        let which = if router::parse(pattern).is_err() {
            "pattern"
        } else {
            "subject"
        };
        tell_refused(which, refusal);
    } else {
        out.write_all(text.as_bytes())?;
    }
    Ok(status)
}
