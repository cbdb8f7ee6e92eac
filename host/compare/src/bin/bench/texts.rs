//! The rows on texts.
use crate::row::row;
use crate::yard;
use compare::lists::Line;
use compare::original;
use oracle::subject::{Subject, SubjectPattern};
use router::raw;

const SUBJECTS: [&str; 6] = [
    "yard.north.points.17.set",
    "yard.south.signal.204.aspect",
    "a.b",
    "yard.east.vehicle.UIC-91-80-6185-123-4-D-ABCDE.position",
    "depot.hall-2.vehicle.Triebwagen-Baureihe-442-Nummer-0017-Zugteil-B.axle.3.temperature",
    "yard.west.gleis-ä.weiche-ö.stellung",
];

const PATTERNS: [&str; 6] = [
    "yard.*.points.*.set",
    "yard.south.signal.>",
    "a.b",
    "yard.east.vehicle.*.position",
    "depot.*.vehicle.Triebwagen-Baureihe-442-Nummer-0017-Zugteil-B.>",
    "yard.west.gleis-ä.weiche-ö.stellung",
];

const UMLAUTS: [&str; 3] = [
    "yard.west.gleis-ä.weiche-ö.stellung",
    "depot.süd.halle-2.tür.17.auf",
    "yard.nord.prellböcke.gleis-3.stoß",
];

const REFUSED: [&str; 6] = [
    "yard.*.points.17.set",
    "yard.north.points.17.>",
    "yard..points.17.set",
    "yard.north.points.17.",
    "yard.north.points.17.se\u{1}",
    "a.b.c.d.e.f.g.h.i.j.k.l.m.n.o.p.q.r.s.t.u.v.w.x.y.z.a.b.c.d.e.f.g",
];

/// The bytes of each token in the rows on tokens of one length, and the tokens of their subjects.
const TOKEN_LENGTHS: [usize; 4] = [8, 20, 60, 200];
const TOKENS: usize = 5;

/// The bytes of each token in the row on matches of such subjects.
const MATCHED_LENGTH: usize = 60;

/// What these tokens are made of.
const LETTERS: &[u8] = b"abcdefghijklmnopqrstuvwxyz-0123456789";

fn known_subject(text: &str) -> u64 {
    Subject::parse_literal(text).map_or(0, |subject| subject.depth() as u64)
}

fn known_pattern(text: &str) -> u64 {
    SubjectPattern::parse(text).map_or(0, |pattern| pattern.depth() as u64)
}

fn known_match(pattern: &str, subject: &str) -> u64 {
    let both = (
        SubjectPattern::parse(pattern),
        Subject::parse_literal(subject),
    );
    matches!(both, (Ok(pattern), Ok(subject)) if pattern.matches(&subject)).into()
}

/// The `number`th subject whose tokens have so many bytes each.
fn subject_of_tokens(length: usize, number: usize) -> String {
    let letters = LETTERS.iter().cycle().skip(number);
    let letters: Vec<u8> = letters.take(TOKENS * length).copied().collect();
    let tokens: Vec<_> = letters
        .chunks(length)
        .map(String::from_utf8_lossy)
        .collect();
    tokens.join(".")
}

fn subjects_of_tokens(length: usize) -> Vec<String> {
    let numbers = 0..SUBJECTS.len();
    numbers
        .map(|number| subject_of_tokens(length, number))
        .collect()
}

/// A pattern that matches such a subject: `*` is its second token, `>` its last.
fn pattern_for(subject: &str) -> String {
    let mut tokens: Vec<&str> = subject.split('.').collect();
    tokens[1] = "*";
    tokens[TOKENS - 1] = ">";
    tokens.join(".")
}

fn parse_literals<T: AsRef<str>>(name: &str, rounds: usize, subjects: &[T]) {
    row(
        name,
        rounds,
        subjects,
        &[
            &|text| raw::parse_literal(text.as_ref().as_bytes()).first,
            &|text| original::parse_literal(text.as_ref().as_bytes()).first,
            &|text| known_subject(text.as_ref()),
        ],
    );
}

/// So many bytes of a subject of 4,096 in 32 tokens of one length, with a character put at a place.
fn long_text(length: usize, place: usize, character: &str) -> String {
    let mut text = vec!["a".repeat(127); 32].join(".") + "a";
    text.truncate(length);
    text.replace_range(place..=place, character);
    text
}

/// The rows on long texts: the longest, accepted, refused at the first byte, and at the last; and the longest that is gone over in one pass before it is
/// refused at the first byte.
fn long_literals(rounds: usize) {
    let named = [
        ("parse_literal, 4,096 bytes in 32 tokens", 4096, 0, "b"),
        (
            "parse_literal, the same behind a dot, refused",
            4096,
            0,
            ".",
        ),
        (
            "parse_literal, the same with a bad end, refused",
            4096,
            4095,
            "\u{1}",
        ),
        (
            "parse_literal, 1,024 bytes behind a dot, refused",
            1024,
            0,
            ".",
        ),
    ];
    for (name, length, place, character) in named {
        parse_literals(name, rounds, &[long_text(length, place, character)]);
    }
}

fn parses<T: AsRef<str>>(name: &str, rounds: usize, patterns: &[T]) {
    row(
        name,
        rounds,
        patterns,
        &[
            &|text| raw::parse(text.as_ref().as_bytes()).first,
            &|text| original::parse(text.as_ref().as_bytes()).first,
            &|text| known_pattern(text.as_ref()),
        ],
    );
}

/// The rows on the patterns of a yard's list: all, and those with wildcards.
fn list_parses(rounds: usize, lines: &[Line]) {
    let patterns = lines.iter().map(|(pattern, _)| pattern.clone()).collect();
    let mut patterns = yard::texts(patterns);
    parses("parse, the yard list's lines", rounds, &patterns);
    patterns.retain(|pattern| pattern.contains(['*', '>']));
    let name = "parse, the yard list's lines with wildcards";
    parses(name, rounds, &patterns);
}

/// A row on pairs of texts.
fn matches(name: &str, rounds: usize, pairs: &[(&str, &str)]) {
    row(
        name,
        rounds,
        pairs,
        &[
            &|(pattern, subject)| raw::matches(pattern.as_bytes(), subject.as_bytes()).first,
            &|(pattern, subject)| original::matches(pattern.as_bytes(), subject.as_bytes()).first,
            &|(pattern, subject)| known_match(pattern, subject),
        ],
    );
}

/// The row on matches of subjects whose tokens have one length.
fn token_matches(rounds: usize) {
    let subjects = subjects_of_tokens(MATCHED_LENGTH);
    let patterns: Vec<String> = subjects.iter().map(|text| pattern_for(text)).collect();
    let patterns = patterns.iter().map(String::as_str);
    let pairs: Vec<(&str, &str)> = patterns.zip(subjects.iter().map(String::as_str)).collect();
    let name = format!("matches, {TOKENS} tokens of {MATCHED_LENGTH} bytes");
    matches(&name, rounds, &pairs);
}

fn hashes(rounds: usize) {
    let tokens: Vec<&[u8]> = SUBJECTS
        .iter()
        .flat_map(|text| text.split('.'))
        .map(str::as_bytes)
        .collect();
    row(
        "token_hash",
        rounds,
        &tokens,
        &[&|token| raw::token_hash(token), &|token| {
            original::token_hash(token)
        }],
    );
}

pub fn rows(rounds: usize, lines: &[Line]) {
    parse_literals("parse_literal", rounds, &SUBJECTS);
    for length in TOKEN_LENGTHS {
        let name = format!("parse_literal, {TOKENS} tokens of {length} bytes");
        parse_literals(&name, rounds, &subjects_of_tokens(length));
    }
    long_literals(rounds);
    parse_literals("parse_literal, with umlauts", rounds, &UMLAUTS);
    parse_literals("parse_literal, refused", rounds, &REFUSED);
    parses("parse", rounds, &PATTERNS);
    list_parses(rounds, lines);
    let pairs: Vec<(&str, &str)> = PATTERNS.into_iter().zip(SUBJECTS).collect();
    matches("matches, both texts parsed", rounds, &pairs);
    token_matches(rounds);
    hashes(rounds);
}
