//! nats-server's own notion of two patterns that meet: `SubjectsCollide` of its server/sublist.go (version 2.9.10, Copyright 2016-2020 The NATS Authors, Apache-2.0),
//! written anew in Rust, step by step. It says whether two patterns could both match one literal subject, of any length: NATS has no limit of 4,096 bytes.

const PARTIAL: &[u8] = b"*";
const FULL: &[u8] = b">";

/// A pattern's tokens, and which wildcards are among them.
struct Analyzed<'a> {
    tokens: Vec<&'a [u8]>,
    partial: bool,
    full: bool,
}

impl Analyzed<'_> {
    fn new(pattern: &[u8]) -> Analyzed<'_> {
        let tokens: Vec<&[u8]> = pattern.split(|&byte| byte == b'.').collect();
        Analyzed {
            partial: tokens.contains(&PARTIAL),
            full: tokens.contains(&FULL),
            tokens,
        }
    }

    fn literal(&self) -> bool {
        !self.partial && !self.full
    }
}

/// `isSubsetMatch` of a literal subject: every token of the pattern in turn, `>` for all that is left.
fn is_subset_match(subject: &[&[u8]], pattern: &[&[u8]]) -> bool {
    for (place, &token) in pattern.iter().enumerate() {
        let Some(&own) = subject.get(place) else {
            return false;
        };
        if token == FULL {
            return true;
        }
        if token != PARTIAL && token != own {
            return false;
        }
    }
    subject.len() == pattern.len()
}

/// `tokensCanMatch`: one is a wildcard, or they are equal.
fn tokens_can_match(one: &[u8], other: &[u8]) -> bool {
    let wild = |token| token == PARTIAL || token == FULL;
    wild(one) || wild(other) || one == other
}

/// Two patterns with wildcards: the shorter one must have `>`, and no two tokens side by side may rule each other out.
fn wildcards_collide(first: &Analyzed, second: &Analyzed) -> bool {
    let (one, other) = (first.tokens.len(), second.tokens.len());
    if !first.full && !second.full && one != other {
        return false;
    }
    if one < other && !first.full || other < one && !second.full {
        return false;
    }
    let mut pairs = first.tokens.iter().zip(&second.tokens);
    pairs.all(|(one, other)| tokens_can_match(one, other))
}

/// `SubjectsCollide`.
pub fn subjects_collide(first: &[u8], second: &[u8]) -> bool {
    if first == second {
        return true;
    }
    let (first, second) = (Analyzed::new(first), Analyzed::new(second));
    match (first.literal(), second.literal()) {
        (true, true) => false,
        (true, false) => is_subset_match(&first.tokens, &second.tokens),
        (false, true) => is_subset_match(&second.tokens, &first.tokens),
        (false, false) => wildcards_collide(&first, &second),
    }
}
