//! Random texts around every limit, as they are and damaged.
use crate::tally::Tally;
use compare::original::MAX_TEXT;
use compare::random::Random;

pub const WORDS: [&str; 12] = [
    "yard", "north", "points", "17", "set", "a", "b", " ", "ß", "Gleis-Ä", "轨道", "🚂",
];

/// Bytes that some rule speaks of or that start or continue a sequence.
const BYTES: &[u8] = b".*>\x00\x1f \x7f\x80\xbf\xc2\xe2\xf0\xf5\xff";

/// Sequences that are nearly well-formed.
const SEQUENCES: [&[u8]; 7] = [
    b"..",
    b"\xc0\x80",
    b"\xe0\x80\x80",
    b"\xed\xa0\x80",
    b"\xf0\x80\x80\x80",
    b"\xf4\x90\x80\x80",
    b"\xf0\x9f\x9a",
];

/// A number of tokens: mostly few, often around the limit of 32.
fn token_count(random: &mut Random) -> usize {
    if random.once_in(4) {
        30 + random.below(5)
    } else {
        1 + random.below(6)
    }
}

/// Tokens with dots between them. In a pattern some are `*`, and the last, rarely another, may be `>`.
pub fn tokens(random: &mut Random, wild: bool) -> Vec<u8> {
    let count = token_count(random);
    let mut text = Vec::new();
    for index in 0..count {
        if index > 0 {
            text.push(b'.');
        }
        let last = index + 1 == count;
        let token = match random.below(8) {
            0 if wild => "*",
            1 if wild && (last || random.once_in(30)) => ">",
            _ => random.pick(&WORDS),
        };
        text.extend_from_slice(token.as_bytes());
    }
    text
}

/// Lengthens the last token until the text has about as many bytes as it may have.
fn lengthen(random: &mut Random, text: &mut Vec<u8>) {
    let length = MAX_TEXT - 2 + random.below(5);
    let filler = random.pick(&WORDS).as_bytes();
    while text.len() < length {
        text.extend_from_slice(filler);
    }
    if random.once_in(2) {
        text.truncate(length);
    }
}

/// Cuts, overwrites, inserts or doubles at some place.
pub fn damage(random: &mut Random, text: &mut Vec<u8>) {
    let at = random.below(text.len() + 1);
    let end = at + random.below(text.len() - at + 1).min(4);
    match random.below(4) {
        0 => text.truncate(at),
        1 => text.extend_from_within(at..end),
        2 => drop(text.splice(at..end, [BYTES[random.below(BYTES.len())]])),
        _ => drop(text.splice(at..at, random.pick(&SEQUENCES).iter().copied())),
    }
}

pub fn any_text(random: &mut Random, wild: bool) -> Vec<u8> {
    let mut text = tokens(random, wild);
    if random.once_in(16) {
        lengthen(random, &mut text);
    }
    if random.once_in(2) {
        damage(random, &mut text);
    }
    text
}

/// A pattern made from a subject: some tokens become `*` or another word, and the end may become `>`.
fn pattern_for(random: &mut Random, subject: &[u8]) -> Vec<u8> {
    let mut tokens: Vec<&[u8]> = subject.split(|&byte| byte == b'.').collect();
    if random.once_in(3) {
        tokens.truncate(random.below(tokens.len() + 1));
        tokens.push(b">");
    }
    for token in &mut tokens {
        match random.below(12) {
            0..3 => *token = b"*",
            3 => *token = random.pick(&WORDS).as_bytes(),
            _ => (),
        }
    }
    tokens.join(&b'.')
}

/// One turn: a text of each kind, a subject with a pattern made for it, and the hash of a part of a text.
pub fn turn(tally: &mut Tally, random: &mut Random) {
    let wild = any_text(random, true);
    let plain = any_text(random, false);
    let near = pattern_for(random, &plain);
    tally.text(&wild);
    tally.text(&plain);
    tally.matching(&wild, &plain);
    tally.matching(&near, &plain);
    tally.hash(&plain[..random.below(plain.len() + 1)]);
}
