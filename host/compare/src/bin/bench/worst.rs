//! The rows on the worst tables: those in which a walk stands at the most nodes, those with the most siblings, and the largest.
use crate::tables::{builds, matches};
use compare::lists::{runs_of_ten, Line};
use compare::table::MAX_ENTRIES;

/// The rows on builds make one round in so many, for a round of them takes long.
const LONG: usize = 4;

/// The subjects of the rows on numbered lines are for one number in so many.
const STEP: usize = 4;

fn long_builds(name: &str, rounds: usize, lines: &[Line]) {
    builds(name, rounds.div_ceil(LONG), lines);
}

/// All runs of ten tokens out of `a` and `*`, alone and with more behind each. On subjects of `a` alone the walk stands at 1,024 nodes from the tenth token on,
/// and the list has all lines.
fn dense_rows(rounds: usize) {
    let short = runs_of_ten("");
    let long = runs_of_ten(&".a".repeat(22));
    let tails = [&long[..], &runs_of_ten(".>")].concat();
    long_builds("build of 1,024 runs of a and *", rounds, &short);
    let name = "build of 1,024 runs of a and *, 22 tokens behind";
    long_builds(name, rounds, &long);
    let name = "build of the same with a > line behind each run";
    long_builds(name, rounds, &tails);
    let subjects = |tokens| [vec!["a"; tokens].join(".").into_bytes()];
    let name = "match on 1,024 runs of a and *";
    matches(name, rounds, &short, &subjects(10));
    let name = "match on 1,024 runs of a and *, 22 tokens behind";
    matches(name, rounds, &long, &subjects(32));
    let name = "the same with a > line behind each run";
    matches(name, rounds, &tails, &subjects(32));
}

/// A text for each number.
type Numbered = fn(usize) -> String;

/// A list of as many lines as there may be, one for each number: its build, matches of lines, and of subjects that no line matches.
fn numbered_rows(rounds: usize, name: &str, line: Numbered, other: Numbered) {
    let numbers = 0..MAX_ENTRIES;
    let lines = numbers.map(|number| (line(number).into_bytes(), number as u32));
    let lines: Vec<Line> = lines.collect();
    long_builds(&format!("build of {name}"), rounds, &lines);
    let subjects = |text: Numbered| {
        let numbers = (0..MAX_ENTRIES).step_by(STEP);
        let subjects = numbers.map(|number| text(number).into_bytes());
        subjects.collect::<Vec<_>>()
    };
    let found = format!("match on {name}");
    matches(&found, rounds, &lines, &subjects(line));
    matches(&format!("{found}, none"), rounds, &lines, &subjects(other));
}

pub fn rows(rounds: usize) {
    dense_rows(rounds);
    numbered_rows(
        rounds,
        "2,048 siblings",
        |number| format!("{number}"),
        |number| format!("{number}-"),
    );
    numbered_rows(
        rounds,
        "2,048 chains of 32 tokens",
        |number| format!("{number}{}", ".a".repeat(31)),
        |number| format!("{number}{}.b", ".a".repeat(30)),
    );
    numbered_rows(
        rounds,
        "2,048 lines that share 31 tokens",
        |number| format!("{}{number}", "a.".repeat(31)),
        |number| format!("{}{number}-", "a.".repeat(31)),
    );
}
