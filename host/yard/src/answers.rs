//! What is said of one order, to people and to programs: its verdict, and the lines that match.
use crate::desk::Order;
use crate::input::InputLine;
use crate::json::{array, Object};
use crate::shown::{counted, refused, shown};
use router::{Refusal, Resolution};
use std::io::{self, Write};

/// What becomes of an order, or why its subject is refused.
pub type Answer<'d, 'f> = Result<Order<'d, 'f>, Refusal>;

/// The most lines that are shown of one ambiguous order, unless all are asked for.
const MOST_LINES: usize = 20;

/// The verdict in words.
fn verdict(resolution: Resolution) -> String {
    match resolution {
        Resolution::Routed(target) => format!("Routed to {target}"),
        Resolution::NoStream => "NoStream: no line matches, the order goes nowhere".into(),
        Resolution::Ambiguous { matched } => {
            format!("Ambiguous: {matched} lines match, the order goes nowhere")
        }
    }
}

/// Why no line matches: how far the lines go along with the subject.
fn hint(subject: &[u8], furthest: &[u8]) -> String {
    let known = if furthest.is_empty() {
        0
    } else {
        router::depth(furthest)
    };
    let next = router::tokens(subject).nth(known).map(shown);
    let furthest = shown(furthest);
    match next {
        Some(next) if known == 0 => format!("no line begins with `{next}`"),
        Some(next) => format!("lines go along as far as `{furthest}`; none goes on with `{next}`"),
        None => format!("lines go along as far as `{furthest}`; each goes on with more"),
    }
}

/// An answer for people: the verdict, and below it the lines that match.
pub fn write(
    out: &mut impl Write,
    subject: &InputLine,
    answer: &Answer<'_, '_>,
    verbose: bool,
) -> io::Result<()> {
    let text = shown(&subject.text);
    let order = match answer {
        Ok(order) => order,
        Err(refusal) => return writeln!(out, "{text}\n    {}", refused(refusal)),
    };
    let peak = if verbose {
        format!(" (peak {})", order.peak)
    } else {
        String::new()
    };
    writeln!(out, "{text}\n    {}{peak}", verdict(order.resolution))?;
    if order.resolution == Resolution::NoStream {
        let furthest = order.furthest(&subject.text);
        writeln!(out, "    {}", hint(&subject.text, &furthest))?;
    }
    let most = if verbose { usize::MAX } else { MOST_LINES };
    write_lines(out, order, most)
}

fn write_lines(out: &mut impl Write, order: &Order<'_, '_>, most: usize) -> io::Result<()> {
    for line in order.lines().take(most) {
        writeln!(out, "    {}  -> {}", line.text(), line.target)?;
    }
    let more = order.matched().saturating_sub(most);
    if more > 0 {
        writeln!(
            out,
            "    and {} (--verbose shows all)",
            counted(more, "more line")
        )?;
    }
    Ok(())
}

fn verdict_json(object: Object, subject: &[u8], order: &Order<'_, '_>) -> Object {
    match order.resolution {
        Resolution::Routed(target) => object.text("verdict", "Routed").field("target", target),
        Resolution::NoStream => object
            .text("verdict", "NoStream")
            .bytes("furthest", &order.furthest(subject)),
        Resolution::Ambiguous { matched } => object
            .text("verdict", "Ambiguous")
            .field("matched", matched),
    }
}

/// An answer for programs, as fields of an object.
pub fn json(object: Object, subject: &InputLine, answer: &Answer<'_, '_>) -> Object {
    let mut object = object.bytes("subject", &subject.text);
    if subject.cut {
        object = object.field("cut", true);
    }
    match answer {
        Ok(order) => verdict_json(object, &subject.text, order)
            .field("peak", order.peak)
            .field("lines", array(order.lines().map(|line| line.json().end()))),
        Err(refusal) => object.text("verdict", "Refused").refusal(refusal),
    }
}
