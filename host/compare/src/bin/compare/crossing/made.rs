//! Pairs of patterns that often cross.
use crate::texts::{any_text, damage, tokens, WORDS};
use compare::original::MAX_TEXT;
use compare::random::Random;
use router::MAX_TOKENS;

fn joined(tokens: &[&[u8]]) -> Vec<u8> {
    tokens.join(&b'.')
}

/// A pattern that is near a subject and mostly matches it: some tokens become `*`, the end may become `>`; or a token is another, one more, or missing.
fn near(random: &mut Random, subject: &[u8]) -> Vec<u8> {
    let mut tokens: Vec<&[u8]> = subject.split(|&byte| byte == b'.').collect();
    let stars = 2 + random.below(4);
    for token in &mut tokens {
        if random.once_in(stars) {
            *token = b"*";
        }
    }
    let word = random.pick(&WORDS).as_bytes();
    let at = random.below(tokens.len());
    match random.below(16) {
        0..5 => {
            tokens.truncate(at);
            tokens.push(b">");
        }
        5 => tokens.push(b">"),
        6 => tokens.push(word),
        7 => tokens[at] = word,
        8 if at > 0 => tokens.truncate(at),
        _ => (),
    }
    joined(&tokens)
}

/// Two patterns near one subject.
fn kin(random: &mut Random) -> [Vec<u8>; 2] {
    let subject = tokens(random, false);
    [(); 2].map(|_| near(random, &subject))
}

/// A token of so many bytes.
fn token(random: &mut Random, length: usize) -> Vec<u8> {
    let word = random.pick(&WORDS).as_bytes();
    let mut token = word.repeat(length / word.len());
    token.resize(length, b'-');
    token
}

/// The tokens of a subject of so many bytes. The last one takes what the others leave, and some have one byte.
fn long_subject(random: &mut Random, bytes: usize) -> Vec<Vec<u8>> {
    let count = 1 + random.below(MAX_TOKENS);
    let mut left = bytes - (2 * count - 1);
    let next = |place| {
        let more = match random.below(6) {
            _ if place == count => left,
            0 => 0,
            _ => random.below(1 + 2 * left / count),
        };
        left -= more;
        token(random, 1 + more)
    };
    (1..=count).map(next).collect()
}

/// A pattern that ends in `*` may have `>` instead, for one or more of them.
fn tailed(random: &mut Random, tokens: &mut Vec<&[u8]>) {
    let stars = tokens.iter().rev().take_while(|token| **token == b"*");
    let stars = stars.count();
    if stars > 0 && random.once_in(2) {
        tokens.truncate(tokens.len() - 1 - random.below(stars));
        tokens.push(b">");
    }
}

/// Two patterns whose crossing has about 4,096 bytes. Of its tokens each asks for some, few are asked for by both, and those of one byte by none.
fn long(random: &mut Random) -> [Vec<u8>; 2] {
    let bytes = MAX_TEXT - 2 + random.below(5);
    let subject = long_subject(random, bytes);
    let mut patterns: [Vec<&[u8]>; 2] = Default::default();
    for token in &subject {
        let wild = match random.below(9) {
            _ if token.len() == 1 => [true, true],
            0 => [false, false],
            1..5 => [true, false],
            _ => [false, true],
        };
        for (pattern, wild) in patterns.iter_mut().zip(wild) {
            pattern.push(if wild { b"*" } else { token });
        }
    }
    patterns.map(|mut tokens| {
        tailed(random, &mut tokens);
        joined(&tokens)
    })
}

/// Two patterns: mostly near one subject, some with a long crossing or nothing to do with each other; of some one is damaged, or has one bit changed.
pub fn pair(random: &mut Random) -> [Vec<u8>; 2] {
    let mut pair = match random.below(16) {
        0 => [(); 2].map(|_| any_text(random, true)),
        1 => long(random),
        _ => kin(random),
    };
    let changed = &mut pair[random.below(2)];
    match random.below(16) {
        0 | 1 => damage(random, changed),
        2 | 3 if !changed.is_empty() => {
            let at = random.below(changed.len());
            changed[at] ^= 1;
        }
        _ => (),
    }
    pair
}
