//! Records what the original answers to a fixed list of calls. The program `replay` (crates/replay) makes the same calls on the router and compares.
//!
//! record FILE [--seed N]
//! The same seed (1, if none is given) gives the same file, byte for byte. The router is not called. Only texts that the original can be asked for are
//! recorded: UTF-8, of up to 4,096 bytes; and to the caches only what a slot of the router holds: subjects of up to 256 bytes, lists of up to 16 targets.
mod calls;
mod recording;

use calls::Calls;
use compare::lists::{self, CLASH};
use compare::random::Random;
use std::process::ExitCode;

const CHARACTERS: [&str; 7] = ["a", ".", "*", ">", "\x01", " ", "é"];

/// Texts of up to so many characters.
fn short_texts(most: usize) -> Vec<String> {
    let mut texts = vec![String::new()];
    let mut from = 0;
    for _ in 0..most {
        let end = texts.len();
        for index in from..end {
            for character in CHARACTERS {
                texts.push(format!("{}{character}", texts[index]));
            }
        }
        from = end;
    }
    texts
}

/// All runs of one to `most` of the tokens, with dots between them.
fn runs(tokens: &[&str], most: usize) -> Vec<String> {
    let mut all: Vec<String> = Vec::new();
    let mut longest = vec![String::new()];
    for _ in 0..most {
        let longer = |run: &String| {
            let dot = if run.is_empty() { "" } else { "." };
            let next = |token: &&str| format!("{run}{dot}{token}");
            tokens.iter().map(next).collect::<Vec<_>>()
        };
        longest = longest.iter().flat_map(longer).collect();
        all.extend_from_slice(&longest);
    }
    all
}

/// Texts at the limits of 32 tokens and of 4,096 bytes, and the control characters.
fn edges() -> Vec<String> {
    let mut texts: Vec<String> = Vec::new();
    for tokens in [31, 32, 33, 34] {
        for last in ["a", "*", ">", "a*", ""] {
            texts.push(format!("{}{last}", "a.".repeat(tokens - 1)));
        }
    }
    texts.push(format!("{}>.a", "a.".repeat(30)));
    texts.push(format!("{}>.a", "a.".repeat(31)));
    texts.push("x".repeat(4096));
    texts.push("é".repeat(2048));
    texts.push(format!("{}{}", "a.".repeat(31), "🚂".repeat(1008)));
    texts.extend(
        (0..=32)
            .chain([126, 127, 128, 159])
            .map(|code: u8| format!("a.b{}", char::from(code))),
    );
    texts
}

const WORDS: [&str; 10] = [
    "yard", "north", "points", "17", "a", "b", " ", "ß", "轨道", "🚂",
];

/// A text of some tokens, rarely with a character put in at some place.
fn any_text(random: &mut Random, wild: bool) -> String {
    let count = if random.once_in(6) {
        30 + random.below(5)
    } else {
        1 + random.below(6)
    };
    let mut tokens = Vec::new();
    for index in 0..count {
        tokens.push(match random.below(8) {
            0 if wild => "*",
            1 if wild && (index + 1 == count || random.once_in(20)) => ">",
            _ => random.pick(&WORDS),
        });
    }
    let mut text = tokens.join(".");
    if random.once_in(3) {
        let places: Vec<usize> = text.char_indices().map(|(place, _)| place).collect();
        let place = places[random.below(places.len())];
        text.insert_str(place, random.pick(&[".", "*", ">", "\0", "\x7f", "é"]));
    }
    text
}

fn texts(calls: &mut Calls, random: &mut Random) {
    for text in short_texts(3).iter().chain(&edges()) {
        calls.text(text);
    }
    for turn in 0..200 {
        calls.text(&any_text(random, turn % 2 == 0));
    }
}

fn matches(calls: &mut Calls, random: &mut Random) {
    let subjects = runs(&["a", "b"], 3);
    let plain = runs(&["a", "b", "*"], 3);
    let tails: Vec<String> = plain.iter().map(|run| format!("{run}.>")).collect();
    for pattern in plain.iter().chain(&tails) {
        for subject in &subjects {
            calls.matches(pattern, subject);
        }
    }
    for text in [">", "", "a", "a.>.b", "a*", ".a", "a.b.", "\x7f"] {
        calls.matches(text, "a.b");
        calls.matches("a.*", text);
        calls.matches(">", text);
    }
    for _ in 0..150 {
        let subject = any_text(random, false);
        let pattern = near(random, &subject);
        calls.matches(&pattern, &subject);
    }
}

/// A pattern made from a subject: some tokens become `*`, and the end may become `>`.
fn near(random: &mut Random, subject: &str) -> String {
    let mut tokens: Vec<&str> = subject.split('.').collect();
    if random.once_in(3) {
        tokens.truncate(random.below(tokens.len() + 1));
        tokens.push(">");
    }
    for token in &mut tokens {
        match random.below(10) {
            0 | 1 => *token = "*",
            2 => *token = random.pick(&WORDS),
            _ => (),
        }
    }
    tokens.join(".")
}

/// A run of one to `most` of the tokens.
fn run(random: &mut Random, tokens: &[&str], most: usize) -> String {
    let count = 1 + random.below(most);
    let run: Vec<&str> = (0..count).map(|_| random.pick(tokens)).collect();
    run.join(".")
}

/// A pattern over few tokens, so that many match one subject; seldom a refused one.
fn dense_pattern(random: &mut Random) -> String {
    let text = run(random, &["a", "b", "*"], 4);
    match random.below(24) {
        0..7 => format!("{text}.>"),
        7 => ">".to_string(),
        8 => format!("{text}.>.a"),
        9 => format!("{text}..b"),
        _ => text,
    }
}

/// A new list of some dense patterns.
fn dense_list(calls: &mut Calls, random: &mut Random, entries: usize) {
    calls.new_list();
    for _ in 0..entries {
        let target = if random.once_in(10) {
            u32::MAX
        } else {
            random.below(100) as u32
        };
        calls.insert(&dense_pattern(random), target);
    }
}

/// A generation of a build: mostly small, at times at the end of the range.
fn generation(random: &mut Random) -> u64 {
    match random.below(4) {
        0 => u64::MAX,
        1 => random.draw(),
        _ => random.below(4) as u64,
    }
}

fn dense_lists(calls: &mut Calls, random: &mut Random) {
    for turn in 0..16 {
        dense_list(calls, random, turn);
        calls.build(generation(random));
        for _ in 0..20 {
            calls.match_table(&run(random, &["a", "b", "c"], 5));
        }
        calls.match_table(&dense_pattern(random));
    }
}

fn yard_lists(calls: &mut Calls, random: &mut Random) {
    for _ in 0..3 {
        calls.new_list();
        for (pattern, target) in lists::yard(random, 40) {
            calls.insert(&utf8(pattern), target);
        }
        calls.build(generation(random));
        for _ in 0..40 {
            calls.match_table(&utf8(lists::yard_subject(random)));
        }
    }
}

fn utf8(bytes: Vec<u8>) -> String {
    String::from_utf8(bytes).expect("the yard's texts are UTF-8")
}

/// Tokens that have one hash, which a table does not tell apart.
fn clashing_list(calls: &mut Calls) {
    let texts = runs(&[CLASH[0], CLASH[1], "*"], 2);
    calls.new_list();
    for (index, pattern) in texts.iter().enumerate() {
        calls.insert(pattern, index as u32);
    }
    calls.build(7);
    for subject in runs(&CLASH, 2) {
        calls.match_table(&subject);
    }
}

/// All runs of ten tokens out of `a` and `*`, whose worst case is 1,024; with two more it is 1,025.
fn longest_frontier(calls: &mut Calls) {
    let all = runs(&["a", "*"], 10);
    let ten = &all[all.len() - 1024..];
    calls.new_list();
    for (index, pattern) in ten.iter().enumerate() {
        calls.insert(pattern, index as u32);
    }
    calls.build(3);
    let stars = &ten[1023];
    calls.match_table(&ten[0]);
    calls.match_table(&stars.replace('*', "b"));
    calls.match_table(&format!("b.{}", ten[0]));
    calls.insert(&format!("{stars}.a"), 1024);
    calls.build(4);
    calls.match_table(&ten[0].replacen('a', "b", 4));
    calls.match_table(&format!("{}.a", ten[0]));
    calls.insert(&format!("{stars}.*"), 1025);
    calls.build(5);
}

/// A call on the snapshot or on a cache.
fn step(calls: &mut Calls, random: &mut Random) {
    let which = random.below(2);
    let subject = match random.below(30) {
        0 => dense_pattern(random),
        1 => run(random, &["a", "b", "c"], 6),
        _ => run(random, &["a", "b"], 3),
    };
    match random.below(40) {
        0 | 1 => {
            let entries = 2 + random.below(10);
            dense_list(calls, random, entries);
            calls.build(generation(random));
            calls.store();
        }
        2 => calls.clear(which),
        3 if random.once_in(3) => calls.new_cache(which, random.below(9)),
        4..8 => calls.match_snapshot(&subject),
        8..12 => calls.verdict(&subject),
        12..20 => calls.cached_verdict(which, &subject),
        _ => calls.resolve(which, &subject),
    }
}

/// Stores, matches, resolves, clears and verdicts on a snapshot, whose first table has this many entries and is built as 0, and on two caches.
fn session(calls: &mut Calls, random: &mut Random, entries: usize, capacities: [usize; 2]) {
    match entries {
        0 => calls.empty_snapshot(),
        _ => {
            dense_list(calls, random, entries);
            calls.build(0);
            calls.new_snapshot();
        }
    }
    calls.new_cache(0, capacities[0]);
    calls.new_cache(1, capacities[1]);
    for _ in 0..300 {
        step(calls, random);
    }
}

fn sessions(calls: &mut Calls, random: &mut Random) {
    session(calls, random, 0, [0, 4]);
    session(calls, random, 1, [1, 8]);
    session(calls, random, 3, [8, 3]);
    session(calls, random, 8, [2, 8]);
    session(calls, random, 16, [5, 6]);
}

/// As much as a slot holds: a subject of 256 bytes and a list of 16 targets.
fn full_slot(calls: &mut Calls) {
    let subject = format!("a.{}", "b".repeat(254));
    calls.new_list();
    for target in 0..16 {
        calls.insert(["a.*", "a.>", "*.>", &subject][target % 4], target as u32);
    }
    calls.build(0);
    calls.new_snapshot();
    calls.new_cache(0, 2);
    for subject in [&subject, "a.b", &subject, "b.a", "a.c", &subject] {
        calls.resolve(0, subject);
        calls.cached_verdict(0, subject);
    }
}

fn verdicts(calls: &mut Calls) {
    for length in 0..6 {
        for target in [0, 1, 7, u32::MAX] {
            calls.single_home(&vec![target; length]);
        }
    }
    calls.single_home(&[5, 6, 5]);
}

fn record(seed: u64) -> Calls {
    let mut calls = Calls::new();
    let mut random = Random::new(seed);
    texts(&mut calls, &mut random);
    matches(&mut calls, &mut random);
    dense_lists(&mut calls, &mut random);
    yard_lists(&mut calls, &mut random);
    clashing_list(&mut calls);
    longest_frontier(&mut calls);
    sessions(&mut calls, &mut random);
    full_slot(&mut calls);
    verdicts(&mut calls);
    calls
}

fn options() -> Option<(String, u64)> {
    let words: Vec<String> = std::env::args().skip(1).collect();
    match &words[..] {
        [file] => Some((file.clone(), 1)),
        [file, option, seed] if option == "--seed" => Some((file.clone(), seed.parse().ok()?)),
        _ => None,
    }
}

fn main() -> ExitCode {
    let Some((file, seed)) = options() else {
        eprintln!("record FILE [--seed N]");
        return ExitCode::from(2);
    };
    let calls = record(seed);
    let bytes = calls.recording().bytes();
    if let Err(e) = std::fs::write(&file, &bytes) {
        eprintln!("{file}: {e}");
        return ExitCode::FAILURE;
    }
    println!(
        "{} records, {} bytes",
        calls.recording().records(),
        bytes.len()
    );
    ExitCode::SUCCESS
}
