//! Tables that no build made: counts beyond the areas, words that point anywhere. A match ends in what a walk over the words as docs/LAYOUT.md
//! describes them gives, and writes the list alone, or nothing.
use crate::tables::{self, answer, bytes_of, fresh_words, match_lent, untouched, MOST_BYTES};
use crate::tally::{Family, Tally};
use compare::area::Lent;
use compare::lists::{self, runs_of_ten};
use compare::original;
use compare::random::Random;
use compare::table::NODE_WORDS;
use router::raw::{self, Answer};

const SUBJECTS: [&str; 9] = [
    "a",
    "a.a",
    "a.a.a.a",
    "a.b.a",
    "yard.north.points.7.set",
    "yard.east.track.3.occupied",
    "a..b",
    "a.*",
    "a.a.a.a.a.a.a.a.a.a.a.a.a.a.a.a.a.a.a.a.a.a.a.a.a.a.a.a.a.a.a.a",
];

/// What a match should answer, and the list that it should write.
fn match_says(table: &Lent, subject: &[u8], places: usize) -> (Answer, Vec<u32>) {
    let parsed = original::parse_literal(subject);
    if !parsed.accepted() {
        return (parsed, vec![]);
    }
    match table.walk(subject) {
        Err(_) => (answer(19, &[]), vec![]),
        Ok((list, _)) if list.len() > places => (answer(21, &[list.len()]), vec![]),
        Ok((list, peak)) => (answer(0, &[list.len(), peak]), list),
    }
}

fn compare_words(tally: &mut Tally, table: &Lent, subject: &[u8], places: usize) {
    let (due, list) = match_says(table, subject, places);
    let mut out = fresh_words(places);
    let ours = match_lent(table, subject, &mut out);
    let inputs = || format!("  {table:?}\n  {}\n", subject.escape_ascii());
    tally.compare_on("match on a hostile table", inputs, ours, due);
    tally.compare_on("its list", inputs, &out[..list.len()], &list);
    tally.compare_on(
        "it keeps the rest",
        inputs,
        untouched(&out, list.len()),
        true,
    );
    tally.met(due);
    tally.matches += 1;
}

/// The same on bytes; 99 if they are too many.
fn compare_bytes(
    tally: &mut Tally,
    random: &mut Random,
    table: &Lent,
    subject: &[u8],
    places: usize,
) {
    let mut node_bytes = bytes_of(&table.node_words);
    node_bytes.extend_from_slice(&b"end"[..random.below(4)]);
    let target_bytes = bytes_of(&table.target_words);
    let mut out = bytes_of(&fresh_words(places));
    out.extend_from_slice(&b"end"[..random.below(4)]);
    let too_many = node_bytes.len() + target_bytes.len() + out.len() > MOST_BYTES;
    let (due, list) = if too_many {
        (answer(99, &[]), vec![])
    } else {
        match_says(table, subject, places)
    };
    let mut out_due = out.clone();
    out_due[..4 * list.len()].copy_from_slice(&bytes_of(&list));
    let ours = raw::match_bytes(
        table.nodes,
        table.targets,
        &node_bytes,
        &target_bytes,
        subject,
        &mut out,
    );
    let inputs = || format!("  {table:?}\n  {}\n", subject.escape_ascii());
    tally.compare_on("match on hostile bytes", inputs, ours, due);
    tally.compare_on("its bytes", inputs, out, out_due);
    tally.met(due);
    tally.matches += 1;
}

fn compare(tally: &mut Tally, random: &mut Random, table: &Lent) {
    for _ in 0..3 {
        let subject = random.pick(&SUBJECTS).as_bytes();
        let places = random.below(40);
        compare_words(tally, table, subject, places);
        if random.once_in(3) {
            compare_bytes(tally, random, table, subject, places);
        }
    }
}

/// A number that a table could have in some word, or that lies just outside, or anywhere.
fn any_word(random: &mut Random, table: &Lent) -> u32 {
    match random.below(8) {
        0 => random.draw() as u32,
        1 => u32::MAX - random.below(2) as u32,
        2 => (table.nodes + random.below(2)) as u32,
        3 => random.below(table.targets + 2) as u32,
        4 => 0,
        _ => random.below(table.nodes.max(1)) as u32,
    }
}

fn any_count(random: &mut Random, count: usize) -> usize {
    match random.below(12) {
        0 => 0,
        1 => count + 1,
        2 => usize::MAX - random.below(2),
        3 => (1 << 60) + random.below(3),
        4 => count.saturating_sub(random.below(4)),
        _ => count,
    }
}

/// A built table with some words and counts changed.
pub fn changed(random: &mut Random, table: &Lent) -> Lent {
    let mut changed = table.clone();
    for _ in 0..random.below(6) {
        let node = random.below(table.nodes.min(12));
        changed.node_words[node * NODE_WORDS + random.below(13)] = any_word(random, table);
    }
    if random.once_in(2) {
        changed.nodes = any_count(random, table.nodes);
        changed.targets = any_count(random, table.targets);
    }
    changed
}

/// Words that are all drawn, the links among few nodes and the hashes of few tokens: chains that meet, and that go round.
pub fn drawn(random: &mut Random) -> Lent {
    let nodes = 1 + random.below(9);
    let targets = random.below(9);
    let mut table = Lent {
        nodes,
        targets,
        node_words: vec![0; nodes * NODE_WORDS],
        target_words: (0..targets as u32).collect(),
    };
    let hash = original::token_hash(b"a");
    for place in 0..nodes * NODE_WORDS {
        table.node_words[place] = match place % NODE_WORDS {
            0 if !random.once_in(4) => hash as u32,
            1 if !random.once_in(4) => (hash >> 32) as u32,
            4 | 6 => random.below(targets + 1) as u32,
            5 | 7 => random.below(2 + targets / 3) as u32,
            _ if random.once_in(12) => any_word(random, &table),
            _ if random.once_in(3) => 0,
            _ => random.below(nodes) as u32,
        };
    }
    table
}

/// The 1,024 runs of ten tokens, whose ends get children among all nodes: frontiers around 1,024 and beyond.
pub fn wide_tables(tally: &mut Tally, random: &mut Random) -> Vec<Lent> {
    let lines = runs_of_ten("");
    let Some(sides) = tables::build(tally, random, &lines) else {
        panic!("the 1,024 runs are refused");
    };
    let hash = original::token_hash(b"a") as u32;
    let changed = |turn: u32| {
        let mut table = sides.table().clone();
        let is_literal = |node: &usize| table.node_words[node * NODE_WORDS] == hash;
        let literals: Vec<usize> = (1..table.nodes).filter(is_literal).collect();
        let is_end = |node: &usize| {
            let at = node * NODE_WORDS;
            table.node_words[at + 2] == 0 && table.node_words[at + 3] == 0
        };
        let ends: Vec<usize> = (0..table.nodes).filter(is_end).collect();
        for (index, end) in ends.into_iter().enumerate() {
            if turn > 0 || index < 1024 {
                table.node_words[end * NODE_WORDS + 3] = 1 + (index as u32 + turn) % 2046;
            }
            if turn > 3 && random.below(12) < turn as usize {
                table.node_words[end * NODE_WORDS + 2] = literals[index % literals.len()] as u32;
            }
        }
        table
    };
    (0..12).map(changed).collect()
}

/// Subjects of as many `a` as such a run has, or more.
pub fn wide_subjects() -> [Vec<u8>; 3] {
    [10, 11, 12].map(|tokens| vec!["a"; tokens].join(".").into_bytes())
}

fn wide(tally: &mut Tally, random: &mut Random) {
    for table in wide_tables(tally, random) {
        for subject in wide_subjects() {
            compare_words(tally, &table, &subject, 1024 * 12);
        }
    }
}

/// Areas of 64 KiB together, and a byte more or less.
fn byte_limit(tally: &mut Tally, random: &mut Random) {
    let lines = [(b"a".to_vec(), 7)];
    let Some(sides) = tables::build(tally, random, &lines) else {
        return;
    };
    for _ in 0..60 {
        let mut table = sides.table().clone();
        let places = random.below(9000);
        let targets = 1 + random.below(4000);
        table.target_words = fresh_words(targets);
        table.target_words[0] = 7;
        let left = 16384 + random.below(3) - 1 - places - targets;
        table.node_words.resize(left, 3);
        compare_bytes(tally, random, &table, b"a", places);
    }
}

/// Frontiers and areas at their limits.
pub fn limits(tally: &mut Tally, random: &mut Random) {
    wide(tally, random);
    byte_limit(tally, random);
    tally.report(
        Family::Tables,
        "frontiers around 1,024 that no build makes, and areas around 64 KiB",
    );
}

/// One turn: the table of a list, changed again and again.
pub fn changed_turn(tally: &mut Tally, random: &mut Random) {
    let count = 1 + random.below(60);
    let lines = lists::yard(random, count);
    let Some(sides) = tables::build(tally, random, &lines) else {
        return;
    };
    for _ in 0..60 {
        let table = changed(random, sides.table());
        compare(tally, random, &table);
    }
}

/// One turn: a table of drawn words, once in a while with other counts.
pub fn drawn_turn(tally: &mut Tally, random: &mut Random) {
    let mut table = drawn(random);
    if random.once_in(8) {
        table.nodes = any_count(random, table.nodes);
        table.targets = any_count(random, table.targets);
    }
    compare(tally, random, &table);
}
