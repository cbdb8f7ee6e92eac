//! Patterns and subjects made from a start (request 2026-13), written from the request's words, apart from the router. Two ways: what a call answers and leaves
//! (`make`); and what an answer must keep to, sentence by sentence (`judge`), the draws made bit by bit and the original saying what is accepted.
use crate::original;
use crate::sentences::{holds, Broken};
use router::raw::MadeText;
use std::array::from_fn;

/// What a call makes.
#[derive(Clone, Copy, Debug, PartialEq, Eq, PartialOrd, Ord)]
pub enum Kind {
    Pattern,
    Subject,
}

pub const KINDS: [Kind; 2] = [Kind::Pattern, Kind::Subject];

/// The most tokens of a made text, and the most bytes: a letter or a wildcard for each token, and the dots between them.
pub const MOST_TOKENS: usize = 6;
pub const MOST_BYTES: usize = 2 * MOST_TOKENS - 1;

/// "the letters a to h"
const LETTERS: &[u8; 8] = b"abcdefgh";

// The text itself.

/// "each draw steps Marsaglia's xorshift with shifts left 13, right 7, left 17 and returns the new state"
pub fn draw(mut state: u64) -> u64 {
    state ^= state << 13;
    state ^= state >> 7;
    state ^= state << 17;
    state
}

/// "0 is `*`; 1 is `>` in last position and `*` elsewhere; 2 to 9 are the letters a to h"
fn pattern_token(drawn: usize, last: bool) -> u8 {
    match drawn {
        0 => b'*',
        1 if last => b'>',
        1 => b'*',
        _ => LETTERS[drawn - 2],
    }
}

/// A text made from a start, and the state behind it. "A pattern has 1 + draw mod 6 tokens. Each token is draw mod 10 [..] A subject's number of tokens is
/// drawn anew by the same rule, and each token is the letter number draw mod 8 from a, which is 0."
pub fn text(kind: Kind, start: u64) -> (Vec<u8>, u64) {
    let mut state = start;
    let mut drawn = |choices| {
        state = draw(state);
        (state % choices) as usize
    };
    let count = 1 + drawn(6);
    let token = |place| match kind {
        Kind::Pattern => [pattern_token(drawn(10), place == count)],
        Kind::Subject => [LETTERS[drawn(8)]],
    };
    let tokens: Vec<[u8; 1]> = (1..=count).map(token).collect();
    (tokens.join(&b'.'), state)
}

/// What a call answers that is lent a state and an output, and the output afterwards. "too short an output is refusal 21 and draws nothing. Turned away: 28
/// ZeroStart, the start is 0, checked before 21 and before anything is written."
pub fn make(kind: Kind, start: u64, out: &[u8]) -> (MadeText, Vec<u8>) {
    let answer = |number, value, state| MadeText {
        number,
        value,
        state,
    };
    if start == 0 {
        return (answer(28, 0, start), out.to_vec());
    }
    let (text, state) = text(kind, start);
    let bytes = text.len() as u64;
    if out.len() < text.len() {
        return (answer(21, bytes, start), out.to_vec());
    }
    let rest = &out[text.len()..];
    (answer(0, bytes, state), [&text, rest].concat())
}

// The draw bit by bit.

/// The bits of a number, the lowest first.
type Bits = [bool; 64];

fn bits(mut number: u64) -> Bits {
    from_fn(|_| {
        let odd = number % 2 == 1;
        number /= 2;
        odd
    })
}

fn number(bits: Bits) -> u64 {
    let bits = bits.iter().rev();
    bits.fold(0, |number, &bit| 2 * number + u64::from(bit))
}

/// Each bit changes where the one so many places below it is set.
fn changed_from_below(bits: Bits, by: usize) -> Bits {
    from_fn(|place| bits[place] != (place >= by && bits[place - by]))
}

/// Each bit changes where the one so many places above it is set.
fn changed_from_above(bits: Bits, by: usize) -> Bits {
    from_fn(|place| bits[place] != (place + by < bits.len() && bits[place + by]))
}

/// The draw, without shifts.
pub fn draw_by_bits(state: u64) -> u64 {
    let left = changed_from_below(bits(state), 13);
    let right = changed_from_above(left, 7);
    number(changed_from_below(right, 17))
}

// What an answer must keep to.

/// As many draws as a text of the most tokens takes, one after the other.
pub type Draws = [u64; 1 + MOST_TOKENS];

/// The draws from a start.
pub fn draws_by_bits(start: u64) -> Draws {
    let mut state = start;
    from_fn(|_| {
        state = draw_by_bits(state);
        state
    })
}

/// The tokens of a text, by the first of its draws.
pub fn token_count(draws: &Draws) -> usize {
    1 + (draws[0] % 6) as usize
}

/// What a call answered, and its output before and afterwards.
pub struct Said<'a> {
    pub made: MadeText,
    pub before: &'a [u8],
    pub after: &'a [u8],
}

fn judge_refusal(start: u64, said: &Said) -> Result<(), Broken> {
    let state = "a refusal hands back the state as lent";
    holds(state, said.made.state == start)?;
    holds("a refusal leaves the output", said.before == said.after)
}

/// A token of a pattern, its draw, and whether it is the last one.
fn judge_pattern_token(token: &[u8], draw: u64, last: bool) -> Result<(), Broken> {
    match draw % 10 {
        0 => holds("0 is *", token == b"*"),
        1 if last => holds("1 is > in last position", token == b">"),
        1 => holds("1 is * elsewhere", token == b"*"),
        number => {
            let letter = [b'a' + number as u8 - 2];
            holds("2 to 9 are the letters a to h", token == letter)
        }
    }
}

fn judge_subject_token(token: &[u8], draw: u64) -> Result<(), Broken> {
    let letter = [b'a' + (draw % 8) as u8];
    let sentence = "each token is the letter number draw mod 8 from a, which is 0";
    holds(sentence, token == letter)
}

fn judge_text(kind: Kind, draws: &Draws, text: &[u8]) -> Result<(), Broken> {
    let count = token_count(draws);
    let tokens: Vec<&[u8]> = text.split(|&byte| byte == b'.').collect();
    holds("a text has 1 + draw mod 6 tokens", tokens.len() == count)?;
    for (place, (token, &draw)) in tokens.iter().zip(&draws[1..]).enumerate() {
        match kind {
            Kind::Pattern => judge_pattern_token(token, draw, place + 1 == count)?,
            Kind::Subject => judge_subject_token(token, draw)?,
        }
    }
    let parsed = match kind {
        Kind::Pattern => original::parse(text),
        Kind::Subject => original::parse_literal(text),
    };
    let grammar = "every pattern and subject made is accepted by the grammar";
    holds(grammar, parsed.accepted())?;
    let depth = "the grammar counts as many tokens";
    holds(depth, parsed.first == count as u64)
}

/// Whether a call was answered right that was lent a state, from which there are these draws.
pub fn judge(kind: Kind, start: u64, draws: &Draws, said: &Said) -> Result<(), Broken> {
    let MadeText {
        number,
        value,
        state,
    } = said.made;
    if start == 0 {
        holds("28 ZeroStart, the start is 0", number == 28)?;
        holds("28 carries no value", value == 0)?;
        return judge_refusal(start, said);
    }
    let count = token_count(draws);
    let bytes = 2 * count - 1;
    if said.before.len() < bytes {
        holds("too short an output is refusal 21", number == 21)?;
        holds("21 carries the bytes needed", value == bytes as u64)?;
        return judge_refusal(start, said);
    }
    holds("each call makes one pattern or subject", number == 0)?;
    holds("its bytes are told", value == bytes as u64)?;
    holds("the new state is the last draw", state == draws[count])?;
    holds("the state never becomes 0", state != 0)?;
    let (text, rest) = said.after.split_at(bytes);
    let kept = "the output behind the text is as it was";
    holds(kept, rest == &said.before[bytes..])?;
    judge_text(kind, draws, text)
}
