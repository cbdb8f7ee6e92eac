//! Lists of made patterns, and made subjects for them: what the router and the original make of them.
use super::starts;
use crate::tables;
use crate::tally::{Family, Tally};
use compare::lists::Line;
use compare::made;
use compare::model_load::{self, Kind};
use compare::random::Random;
use compare::table::{ENTRY_NUMBERS, MAX_ENTRIES};

/// The lines of lists, each from some starts; the longest has one line more than a list may have.
const COUNTS: [usize; 9] = [0, 1, 2, 10, 100, 500, 1_600, MAX_ENTRIES, MAX_ENTRIES + 1];
const STARTS: [u64; 10] = [
    1,
    2,
    3,
    1 << 16,
    1 << 32,
    1 << 48,
    1 << 63,
    88_172_645_463_325_252,
    u64::MAX - 1,
    u64::MAX,
];

/// The subjects for each list.
const SUBJECTS: usize = 500;

/// Lists of up to so many lines are compared with the definitions without a tree, too.
const DEFINED: usize = 10;

/// So many made patterns, and so many made subjects, each matched with each.
const MATCHED: usize = 400;

/// Made texts are those of the model, and the texts that the original takes them for.
fn texts(tally: &mut Tally, kind: Kind, start: u64, texts: &[Vec<u8>]) {
    let mut state = start;
    for ours in texts {
        let (due, behind) = model_load::text(kind, state);
        let inputs = || format!("  {} from {state}\n", made::name(kind));
        tally.compare_on("a text of a made list", inputs, ours, &due);
        tally.text(ours);
        state = behind;
    }
}

/// The lines join a list one by one. Those that did.
fn inserted<'a>(tally: &mut Tally, lines: &'a [Line]) -> &'a [Line] {
    let bytes = lines.iter().map(|(pattern, _)| pattern.len()).sum();
    let mut words = vec![usize::MAX; lines.len() * ENTRY_NUMBERS];
    let mut store = vec![b'-'; bytes];
    let (mut entries, mut used) = (0, 0);
    for line in lines {
        let told = tables::insert(tally, entries, used, &mut words, &mut store, line);
        if told.accepted() {
            (entries, used) = (told.first as usize, told.second as usize);
        }
    }
    let due = lines.len().min(MAX_ENTRIES);
    tally.compare_list("entries of a made list", lines, b"", entries, due);
    &lines[..entries]
}

/// A list of made patterns, and made subjects from the state behind it.
fn list(tally: &mut Tally, random: &mut Random, start: u64, count: usize, subjects: usize) {
    let mut state = start;
    let lines = made::lines(count, &mut state);
    let patterns: Vec<Vec<u8>> = lines.iter().map(|(pattern, _)| pattern.clone()).collect();
    texts(tally, Kind::Pattern, start, &patterns);
    let behind = state;
    let subjects = made::texts(Kind::Subject, subjects, &mut state);
    texts(tally, Kind::Subject, behind, &subjects);
    let lines = inserted(tally, &lines);
    let sides = tables::build(tally, random, lines);
    tally.compare_list("a made list stands", lines, b"", sides.is_some(), true);
    let Some(sides) = sides else {
        return;
    };
    for subject in &subjects {
        sides.subject(tally, random, subject);
        if count <= DEFINED {
            sides.defined(tally, subject);
        }
    }
}

/// Made patterns against made subjects, without a table.
fn matches(tally: &mut Tally) {
    let mut state = 1;
    let patterns = made::texts(Kind::Pattern, MATCHED, &mut state);
    let subjects = made::texts(Kind::Subject, MATCHED, &mut state);
    for pattern in &patterns {
        for subject in &subjects {
            tally.matching(pattern, subject);
        }
    }
    tally.report(Family::Made, "400 made patterns against 400 made subjects");
}

/// A list of any length from any start.
pub fn any(tally: &mut Tally, random: &mut Random) {
    let start = starts::any(random).max(1);
    let most = if random.once_in(4) { MAX_ENTRIES } else { 60 };
    let count = random.below(most + 1);
    list(tally, random, start, count, 60);
}

pub fn run(tally: &mut Tally, random: &mut Random) {
    for start in STARTS {
        for count in COUNTS {
            list(tally, random, start, count, SUBJECTS);
        }
    }
    let part = "90 lists of up to 2,049 made patterns, with 500 made subjects each";
    tally.report(Family::Made, part);
    matches(tally);
}
