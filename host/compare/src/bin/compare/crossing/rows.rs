//! Crossings whose subjects are written out.
use super::pair::Pair;
use crate::tally::{Family, Tally};
use compare::lists::CLASH;
use compare::original::MAX_TEXT;
use router::raw;

/// Two patterns, and the subject that both match, if there is one.
const ROWS: [(&str, &str, Option<&str>); 23] = [
    ("a.*", "*.b", Some("a.b")),
    ("a.b", "a.b", Some("a.b")),
    ("a.b", "a.c", None),
    ("a", "ab", None),
    ("ab", "a", None),
    ("*", "*", Some("x")),
    (">", ">", Some("x")),
    ("*", ">", Some("x")),
    ("x", "*", Some("x")),
    ("*.*.*", ">", Some("x.x.x")),
    ("a.>", "a", None),
    ("a.>", "a.*", Some("a.x")),
    ("a.>", "*.*.b", Some("a.x.b")),
    ("a.>", "a.b.>", Some("a.b.x")),
    ("a.>", "*.>", Some("a.x")),
    ("a.>", "b.>", None),
    ("*", "*.*", None),
    ("*.*.>", "a.*", None),
    (
        "yard.*.points.>",
        "yard.north.*.17.set",
        Some("yard.north.points.17.set"),
    ),
    (
        "yard.harbour.track.*.>",
        "yard.*.track.7.occupied",
        Some("yard.harbour.track.7.occupied"),
    ),
    ("gleis-ä.*.北", "*.weiche-ö.>", Some("gleis-ä.weiche-ö.北")),
    (" .*", "*. ", Some(" . ")),
    (CLASH[0], CLASH[1], None),
];

/// Bytes of two tokens, one asked for by each pattern, and whether they are shown: 2,047 and 2,048 make 4,096 with the dot, and one more is too much.
const HALVES: [(usize, usize, bool); 6] = [
    (2047, 2048, true),
    (2048, 2047, true),
    (2048, 2048, false),
    (1, 4094, true),
    (2, 4094, false),
    (3000, 3000, false),
];

/// The router's answer against a subject written out, and then as all others.
fn row(tally: &mut Tally, first: &str, second: &str, subject: Option<&str>) {
    let patterns = [first.as_bytes(), second.as_bytes()];
    let mut out = [0; MAX_TEXT];
    let said = raw::crossing(patterns[0], patterns[1], &mut out);
    let text = out.get(..said.second as usize).unwrap_or(&out);
    let text = (said.first == 1).then(|| String::from_utf8_lossy(text));
    let due = subject.map(Into::into);
    let inputs = || format!("  on \"{first}\" \"{second}\"\n");
    tally.compare_on(
        "crossing written out",
        inputs,
        (said.number, text),
        (0, due),
    );
    let pair = Pair::new(patterns);
    pair.calls(tally, pair.all_lengths());
}

pub fn run(tally: &mut Tally) {
    for (first, second, subject) in ROWS {
        row(tally, first, second, subject);
        row(tally, second, first, subject);
    }
    for (one, other, fits) in HALVES {
        let [one, other] = [("a", one), ("b", other)].map(|(letter, bytes)| letter.repeat(bytes));
        let subject = format!("{one}.{other}");
        let subject = fits.then_some(subject.as_str());
        row(tally, &format!("{one}.*"), &format!("*.{other}"), subject);
    }
    tally.report(Family::Crossings, "crossings written out");
}
