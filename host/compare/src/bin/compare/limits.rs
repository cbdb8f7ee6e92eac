//! Lists and areas at their limits: inserts, refused builds, and the scope document's row of 1,024 runs.
use crate::tables::{self, answer, fresh_words, packed, untouched};
use crate::tally::{Family, Tally};
use compare::lists::{self, run_of_ten, runs_of_ten, Line};
use compare::model::Tree;
use compare::original;
use compare::random::Random;
use compare::table::{ENTRY_NUMBERS, MAX_ENTRIES, MAX_FRONTIER, NODE_WORDS};
use router::raw;

/// Inserts until the list is full and one further, with so many places and one number too many or too few.
fn fill(tally: &mut Tally, places: usize, odd: usize) {
    let mut words = vec![usize::MAX; places * ENTRY_NUMBERS + odd];
    let mut store = vec![b'-'; 4 * places];
    let (mut entries, mut used) = (0, 0);
    loop {
        let line = (format!("a.{}", entries % 10).into_bytes(), entries as u32);
        let told = tables::insert(tally, entries, used, &mut words, &mut store, &line);
        if !told.accepted() {
            let due = MAX_ENTRIES.min(words.len() / ENTRY_NUMBERS);
            tally.compare_list("entries of a full list", &[line], b"", entries, due);
            return;
        }
        entries = told.first as usize;
        used = told.second as usize;
    }
}

/// A text store that is full to the byte, one byte short, or has fewer bytes than are said to be in use.
pub fn tight_store(tally: &mut Tally, random: &mut Random) {
    let pattern = random
        .pick(&["a", "ab.*", "yard.>", ">", "a..b", ""])
        .as_bytes()
        .to_vec();
    let bytes = random.below(3 * pattern.len() + 3);
    let places = random.below(4);
    let mut words: Vec<usize> = (0..places * ENTRY_NUMBERS + random.below(3))
        .map(|_| random.draw() as usize)
        .collect();
    let mut store: Vec<u8> = (0..bytes).map(|_| random.draw() as u8).collect();
    let used = match random.below(6) {
        0 => usize::MAX - random.below(3),
        1 => bytes.saturating_sub(pattern.len()),
        _ => random.below(bytes + 3),
    };
    let entries = match random.below(6) {
        0 => usize::MAX - random.below(3),
        1 => MAX_ENTRIES - 1 + random.below(3),
        _ => random.below(places + 2),
    };
    let line = (pattern, random.draw() as u32);
    tables::insert(tally, entries, used, &mut words, &mut store, &line);
}

pub fn inserts(tally: &mut Tally) {
    for places in [0, 1, 2, 2046, 2047, 2048, 2049] {
        for odd in 0..3 {
            fill(tally, places, odd);
        }
    }
    tally.report(Family::Tables, "inserts until the list is full");
}

/// What build should say of numbers and bytes that may be any, by the scope document's words.
fn build_says(
    words: &[usize],
    store: &[u8],
    nodes: usize,
    targets: usize,
    generation: u64,
) -> raw::Answer {
    let entries: Vec<&[usize]> = words.chunks_exact(ENTRY_NUMBERS).collect();
    if entries.len() > MAX_ENTRIES {
        return answer(10, &[]);
    }
    let mut lines: Vec<Line> = Vec::new();
    for (index, entry) in entries.iter().enumerate() {
        let end = entry[0]
            .checked_add(entry[1])
            .filter(|&end| end <= store.len());
        let Some(end) = end else {
            return answer(12, &[index]);
        };
        let pattern = &store[entry[0]..end];
        let parsed = original::parse(pattern);
        if !parsed.accepted() {
            return original::held(parsed);
        }
        lines.push((pattern.to_vec(), entry[2] as u32));
    }
    let tree = Tree::new(&lines);
    if tree.node_count() > nodes {
        return answer(14, &[tree.node_count()]);
    }
    if lines.len() > targets {
        return answer(15, &[]);
    }
    if tree.worst_case() > MAX_FRONTIER {
        return answer(16, &[tree.worst_case(), MAX_FRONTIER]);
    }
    raw::Answer {
        third: generation,
        ..answer(0, &[tree.node_count(), tree.worst_case()])
    }
}

/// A build of any numbers and bytes into areas of any size.
fn build_any(
    tally: &mut Tally,
    words: &[usize],
    store: &[u8],
    nodes: usize,
    targets: usize,
    generation: u64,
) {
    let mut node_words = fresh_words(nodes);
    let mut target_words = fresh_words(targets);
    let due = build_says(words, store, nodes / NODE_WORDS, targets, generation);
    let ours = raw::build(words, store, &mut node_words, &mut target_words, generation);
    let inputs = || {
        let text = store.escape_ascii();
        format!("  numbers {words:?}\n  store \"{text}\"\n  {nodes} node words, {targets} target words\n")
    };
    tally.compare_on("build", inputs, ours, due);
    let (nodes_from, targets_from) = if due.accepted() {
        (due.first as usize * NODE_WORDS, words.len() / ENTRY_NUMBERS)
    } else {
        (nodes, 0)
    };
    let kept = untouched(&node_words, nodes_from) && untouched(&target_words, targets_from);
    tally.compare_on("build keeps unused words", inputs, kept, true);
    tally.met(due);
    tally.builds += 1;
}

/// A short list with some number or byte changed, and areas that may be short.
pub fn damaged_list(tally: &mut Tally, random: &mut Random) {
    let count = random_count(random);
    let lines = lists::yard(random, count);
    let (mut words, mut store) = packed(&lines);
    for _ in 0..random.below(3) {
        match random.below(4) {
            0 if !words.is_empty() => {
                let at = random.below(words.len());
                let far = usize::MAX - random.below(4);
                words[at] = if random.once_in(2) {
                    far
                } else {
                    random.below(2 * store.len() + 2)
                };
            }
            1 if !store.is_empty() => {
                let at = random.below(store.len());
                store[at] = *random
                    .pick(&[b"." as &[u8], b">", b"*", b"\x80", b"\x01"])
                    .first()
                    .unwrap_or(&0);
            }
            2 => words.truncate(random.below(words.len() + 1)),
            _ => words.extend((0..random.below(4)).map(|_| random.below(store.len() + 2))),
        }
    }
    let nodes = random.below(NODE_WORDS * (5 * lines.len() + 3));
    let targets = (lines.len() + 2).saturating_sub(random.below(4));
    build_any(tally, &words, &store, nodes, targets, random.draw());
}

fn random_count(random: &mut Random) -> usize {
    if random.once_in(50) {
        random.below(400)
    } else {
        random.below(12)
    }
}

/// Lists of 2,047 to 2,050 entries, whole ones and with numbers behind the last.
fn long_lists(tally: &mut Tally, random: &mut Random) {
    for count in 2046..=2050 {
        let lines = lists::yard(random, count);
        let (mut words, store) = packed(&lines);
        for _ in 0..ENTRY_NUMBERS {
            build_any(tally, &words, &store, 16 * 8192, 2048, random.draw());
            words.push(random.below(store.len()));
        }
    }
}

pub fn builds(tally: &mut Tally, random: &mut Random) {
    long_lists(tally, random);
    tally.report(Family::Tables, "builds of lists of about 2,048 entries");
}

/// All runs of ten tokens out of `a` and `*`: 1,024, accepted. With the all-star run followed by `.a` and by `.*`: 1,025, refused.
pub fn runs(tally: &mut Tally, random: &mut Random) {
    let mut lines = runs_of_ten("");
    let Some(sides) = tables::build(tally, random, &lines) else {
        panic!("the 1,024 runs are refused");
    };
    let subject = b"a.a.a.a.a.a.a.a.a.a";
    for length in 1..=subject.len() / 2 + 1 {
        sides.subject(tally, random, &subject[..2 * length - 1]);
        sides.defined(tally, &subject[..2 * length - 1]);
    }
    let worst = Tree::new(&lines).worst_case();
    tally.compare_list("the worst case of the 1,024 runs", &lines, b"", worst, 1024);
    for end in [".a", ".*"] {
        let longer = [run_of_ten(1023), end.into()].concat();
        lines.push((longer, 1024));
    }
    let refused = original::build(&lines, 0).err();
    tally.compare_list(
        "the runs with two more",
        &lines,
        b"",
        refused,
        Some(answer(16, &[1025, 1024])),
    );
    tables::build(tally, random, &lines);
    tally.report(Family::Tables, "the 1,024 runs of ten tokens, and two more");
}

/// A build into areas that just hold it, one that lacks a node or a target, and matches on it.
fn tight(tally: &mut Tally, random: &mut Random, lines: &[Line]) {
    let (words, store) = packed(lines);
    let nodes = NODE_WORDS * Tree::new(lines).node_count();
    for (nodes, targets) in [
        (nodes, lines.len()),
        (nodes - 1, lines.len()),
        (nodes, lines.len() - 1),
    ] {
        build_any(tally, &words, &store, nodes, targets, random.draw());
    }
    let Some(sides) = tables::build(tally, random, lines) else {
        panic!("a list of literal patterns is refused");
    };
    for _ in 0..200 {
        let line = random.below(lines.len());
        sides.subject(tally, random, &lines[line].0);
    }
}

/// The tables with the most nodes and with the longest texts: 2,048 patterns of 32 tokens that share none, and 2,048 of 4,096 bytes.
pub fn largest(tally: &mut Tally) {
    let mut random = Random::new(1);
    let deep = |number: usize| format!("{number}{}", ".a".repeat(31)).into_bytes();
    let long = |number: usize| format!("{number:0>4}.{}", "b".repeat(4091)).into_bytes();
    for pattern in [&deep as &dyn Fn(usize) -> Vec<u8>, &long] {
        let lines: Vec<Line> = (0..MAX_ENTRIES)
            .map(|number| (pattern(number), number as u32))
            .collect();
        tight(tally, &mut random, &lines);
    }
    tally.report(
        Family::Tables,
        "the lists with the most nodes and with the longest texts",
    );
}
