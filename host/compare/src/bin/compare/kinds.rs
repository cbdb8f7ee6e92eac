//! Random lists of several kinds, and subjects for them.
use crate::tables;
use crate::tally::Tally;
use compare::lists::{self, run_of_ten, Line, CLASH};
use compare::random::Random;
use compare::table::MAX_ENTRIES;

const WORDS: [&str; 8] = ["a", "b", "c", "ä", " ", "轨道", "points", "set"];

fn text(tokens: &[&str]) -> Vec<u8> {
    tokens.join(".").into_bytes()
}

/// A pattern of up to `most` tokens out of some words, with `*` once in `stars` tokens and `>` once in `tails` patterns.
pub fn pattern(
    random: &mut Random,
    words: &[&str],
    most: usize,
    stars: usize,
    tails: usize,
) -> Vec<u8> {
    let count = 1 + random.below(most);
    let mut tokens: Vec<&str> = (0..count)
        .map(|_| {
            if random.once_in(stars) {
                "*"
            } else {
                random.pick(words)
            }
        })
        .collect();
    if random.once_in(tails) {
        tokens[count - 1] = ">";
    }
    text(&tokens)
}

/// A subject that a pattern matches: a word for each `*`, some for `>`.
fn subject_for(random: &mut Random, words: &[&str], pattern: &[u8]) -> Vec<u8> {
    let mut tokens: Vec<&[u8]> = pattern.split(|&byte| byte == b'.').collect();
    if tokens.last() == Some(&&b">"[..]) {
        tokens.pop();
        let most = 32 - tokens.len();
        for _ in 0..1 + random.below(most.min(3)) {
            tokens.push(random.pick(words).as_bytes());
        }
    }
    for token in &mut tokens {
        if *token == b"*" {
            *token = random.pick(words).as_bytes();
        }
    }
    tokens.join(&b'.')
}

/// A subject near a list: one that matches some line, or one that has another word somewhere, a token more or one less.
pub fn subject_near(random: &mut Random, words: &[&str], lines: &[Line]) -> Vec<u8> {
    let word = random.pick(words).as_bytes();
    if lines.is_empty() {
        return word.to_vec();
    }
    let line = random.below(lines.len());
    let mut subject = subject_for(random, words, &lines[line].0);
    match random.below(6) {
        0 => {
            let mut tokens: Vec<&[u8]> = subject.split(|&byte| byte == b'.').collect();
            let at = random.below(tokens.len());
            tokens[at] = word;
            subject = tokens.join(&b'.');
        }
        1 => {
            subject.push(b'.');
            subject.extend_from_slice(word);
        }
        2 => {
            let end = subject.iter().rposition(|&byte| byte == b'.');
            subject.truncate(end.unwrap_or(subject.len()));
        }
        _ => (),
    }
    subject
}

/// Lines with targets, many of them equal.
pub fn with_targets(random: &mut Random, patterns: Vec<Vec<u8>>) -> Vec<Line> {
    let most = 1 + random.below(2 * patterns.len() + 1);
    let target = |pattern| (pattern, random.below(most) as u32);
    patterns.into_iter().map(target).collect()
}

/// Builds a list, and matches so many subjects near it and of its own kind.
fn run(
    tally: &mut Tally,
    random: &mut Random,
    lines: &[Line],
    words: &[&str],
    subjects: usize,
    own: impl Fn(&mut Random) -> Vec<u8>,
) {
    let Some(sides) = tables::build(tally, random, lines) else {
        return;
    };
    for _ in 0..subjects {
        let subject = if random.once_in(3) {
            own(random)
        } else {
            subject_near(random, words, lines)
        };
        sides.subject(tally, random, &subject);
    }
}

/// A yard's list of 200 to 1,600 patterns.
fn yard(tally: &mut Tally, random: &mut Random) {
    let count = 200 + random.below(1401);
    let lines = lists::yard(random, count);
    run(tally, random, &lines, &WORDS, 400, lists::yard_subject);
}

/// Nearly all runs of ten tokens out of `a` and `*`, and some that go on: a worst case around 1,024.
fn near_limit(tally: &mut Tally, random: &mut Random) {
    let mut patterns: Vec<Vec<u8>> = (0..1024).map(run_of_ten).collect();
    let missing = random.below(3) * random.below(4);
    for _ in 0..missing {
        patterns.swap_remove(random.below(patterns.len()));
    }
    for _ in 0..random.below(8) {
        let run = run_of_ten(random.below(1024));
        for end in [".a", ".*", ".>", ".b", ".*.a"] {
            if random.once_in(2) {
                let at = random.below(patterns.len());
                patterns.insert(at, [&run, end.as_bytes()].concat());
            }
        }
    }
    let lines = with_targets(random, patterns);
    run(tally, random, &lines, &["a", "a", "a", "b"], 8, |random| {
        text(&vec!["a"; 1 + random.below(12)])
    });
}

/// Short patterns with many wildcards, up to as many as a list may have.
fn dense(tally: &mut Tally, random: &mut Random) {
    let count = 1 + random.below(MAX_ENTRIES);
    let most = 3 + random.below(8);
    let patterns = (0..count)
        .map(|_| pattern(random, &["a", "b"], most, 2, 12))
        .collect();
    let lines = with_targets(random, patterns);
    run(tally, random, &lines, &["a", "b"], 60, |random| {
        pattern(random, &["a", "b", "c"], 10, usize::MAX, usize::MAX)
    });
}

/// Patterns of up to 32 tokens, many of which begin alike.
fn deep(tally: &mut Tally, random: &mut Random) {
    let mut patterns: Vec<Vec<u8>> = Vec::new();
    for _ in 0..2 + random.below(300) {
        let mut new = pattern(random, &WORDS, 32, 5, 6);
        if !patterns.is_empty() && random.once_in(2) {
            let old = &patterns[random.below(patterns.len())];
            let kept = random.below(33);
            let tokens = old
                .split(|&byte| byte == b'.')
                .take(kept)
                .filter(|token| token != b">");
            let rest = new.split(|&byte| byte == b'.');
            let joined: Vec<&[u8]> = tokens.chain(rest).take(32).collect();
            new = joined.join(&b'.');
        }
        patterns.push(new);
    }
    let lines = with_targets(random, patterns);
    run(tally, random, &lines, &WORDS, 100, |random| {
        pattern(random, &WORDS, 33, usize::MAX, usize::MAX)
    });
}

/// Few patterns, each many times.
fn equal_lines(tally: &mut Tally, random: &mut Random) {
    let few: Vec<Vec<u8>> = (0..1 + random.below(6))
        .map(|_| pattern(random, &["a", "b"], 3, 3, 4))
        .collect();
    let count = 1 + random.below(MAX_ENTRIES);
    let patterns = (0..count)
        .map(|_| few[random.below(few.len())].clone())
        .collect();
    let lines = with_targets(random, patterns);
    run(tally, random, &lines, &["a", "b"], 20, |random| {
        pattern(random, &["a", "b"], 4, usize::MAX, usize::MAX)
    });
}

/// Tokens of one hash, with and without a common end.
fn clashing(tally: &mut Tally, random: &mut Random) {
    let [one, other] = CLASH;
    let longer = CLASH.map(|token| format!("{token}-17"));
    let words = [one, other, &longer[0], &longer[1], "a"];
    let patterns = (0..1 + random.below(40))
        .map(|_| pattern(random, &words, 4, 4, 5))
        .collect();
    let lines = with_targets(random, patterns);
    run(tally, random, &lines, &words, 60, |random| {
        pattern(random, &words, 5, usize::MAX, usize::MAX)
    });
}

/// Few patterns of few tokens, also by the definitions without a tree, with subjects that are refused among the others.
fn small(tally: &mut Tally, random: &mut Random) {
    let patterns = (0..random.below(13))
        .map(|_| pattern(random, &["a", "b"], 4, 3, 4))
        .collect();
    let lines = with_targets(random, patterns);
    let Some(sides) = tables::build(tally, random, &lines) else {
        return;
    };
    for _ in 0..6 {
        let subject = subject_near(random, &["a", "b"], &lines);
        sides.subject(tally, random, &subject);
        sides.defined(tally, &subject);
    }
    let odd = pattern(
        random,
        &["a", "", "*b", "\x01", ">", "*", "\u{7f}"],
        34,
        9,
        9,
    );
    sides.subject(tally, random, &odd);
}

/// A kind of list, how often it is drawn in a turn, and once in how many turns.
type Kind = (fn(&mut Tally, &mut Random), u64, usize);

const KINDS: [Kind; 7] = [
    (yard, 1, 1),
    (near_limit, 1, 5),
    (dense, 1, 4),
    (deep, 1, 2),
    (equal_lines, 1, 4),
    (clashing, 4, 1),
    (small, 40, 1),
];

/// One turn: lists of all kinds.
pub fn turn(tally: &mut Tally, random: &mut Random) {
    for (kind, times, turns) in KINDS {
        if random.once_in(turns) {
            for _ in 0..times {
                kind(tally, random);
            }
        }
    }
}
