//! A subject that two patterns both match, or that there is none (request 2026-01), written from the request's words, apart from the router. Three ways:
//! what an answer must keep to, sentence by sentence, the original saying what is accepted and matched (`judge`); all short subjects tried (`Subjects`);
//! and the subject itself, put together place by place (`Due`), for patterns of any length.
use crate::lists::runs;
use crate::model_snapshot::answer;
use crate::original::{self, MAX_TEXT};
use crate::sentences::{holds, Broken};
use router::raw::Answer;

/// "A position that is wild in both patterns gets the token `x`."
const FILLER: &[u8] = b"x";

const STAR: &[u8] = b"*";
const TAIL: &[u8] = b">";

/// Two patterns, in the order in which a call is given them.
pub type Patterns<'a> = [&'a [u8]; 2];

fn tokens(text: &[u8]) -> impl Iterator<Item = &[u8]> {
    text.split(|&byte| byte == b'.')
}

/// Which of two patterns is refused, the first one first, and why.
fn refused(patterns: Patterns) -> Option<(usize, Answer)> {
    let mut parsed = patterns.into_iter().map(original::parse).enumerate();
    parsed.find(|(_, parsed)| !parsed.accepted())
}

/// Whether the original accepts both and says that the one matches the other.
fn matches(pattern: &[u8], subject: &[u8]) -> bool {
    original::matches(pattern, subject) == answer(0, &[1])
}

// What an answer must keep to.

/// What a call answered, and its output before and afterwards.
pub struct Said<'a> {
    pub answer: Answer,
    pub before: &'a [u8],
    pub after: &'a [u8],
}

/// Whether any token will do for a pattern at a place: `*` stands there, or `>` there or before it.
fn wild(pattern: &[u8], place: usize) -> bool {
    let here = tokens(pattern).nth(place);
    here == Some(STAR) || tokens(pattern).take(place + 1).any(|token| token == TAIL)
}

fn judge_kept(said: &Said) -> Result<(), Broken> {
    holds("the output is as it was", said.before == said.after)
}

fn judge_shown(
    patterns: Patterns,
    fewest: Option<usize>,
    said: &Said,
    length: usize,
) -> Result<(), Broken> {
    let fits = said.before.len() >= length && said.after.len() == said.before.len();
    holds("a subject shown fits the output", fits)?;
    let (subject, rest) = said.after.split_at(length);
    holds(
        "the output behind the subject is as it was",
        rest == &said.before[length..],
    )?;
    let parsed = original::parse_literal(subject);
    holds("a subject shown is accepted", parsed.accepted())?;
    let [first, second] = patterns.map(|pattern| matches(pattern, subject));
    holds("the first pattern matches the subject shown", first)?;
    holds("the second pattern matches the subject shown", second)?;
    let open = |place| patterns.iter().all(|pattern| wild(pattern, place));
    let mut places = tokens(subject).enumerate();
    holds(
        "a position that is wild in both patterns gets the token x",
        places.all(|(place, token)| token == FILLER || !open(place)),
    )?;
    holds(
        "every other subject that both match has at least as many bytes",
        fewest == Some(length),
    )
}

/// Whether a call was answered right. `fewest` is the fewest bytes of a subject accepted and matched by both patterns, if there is one.
pub fn judge(patterns: Patterns, fewest: Option<usize>, said: &Said) -> Result<(), Broken> {
    if let Some((_, refusal)) = refused(patterns) {
        let why = "the first pattern that is refused is why the call is";
        holds(why, said.answer == refusal)?;
        return judge_kept(said);
    }
    let [first, second] = [said.answer.first, said.answer.second].map(|value| value as usize);
    if said.answer == answer(0, &[1, second]) {
        return judge_shown(patterns, fewest, said, second);
    }
    if said.answer == answer(21, &[first]) {
        let needed = "21 has the fewest bytes of a subject that both match";
        holds(needed, fewest == Some(first))?;
        let short = "21 is for an output that is too short";
        holds(short, said.before.len() < first)?;
    } else {
        let known = "an answer is a refusal, none, or a subject shown";
        holds(known, said.answer == answer(0, &[]))?;
        let none = "none is said only if no accepted subject matches both";
        holds(none, fewest.is_none())?;
    }
    judge_kept(said)
}

// All short subjects.

/// All subjects of up to so many tokens out of a few, those of fewer bytes first.
pub struct Subjects {
    texts: Vec<Vec<u8>>,
}

/// Which of the subjects a pattern matches, a bit for each, 64 in a word.
pub struct Matched(Vec<u64>);

impl Subjects {
    /// The subjects out of all literals of some patterns, `x` and another token of one byte, with up to one token more than the longest pattern. If any subject
    /// at all matches two of the patterns, so does one of these that has no more bytes: each of its tokens that is no literal of either may become `x`,
    /// and what follows behind as many tokens as the longer pattern has may be left out, for then both end in `>`.
    pub fn for_patterns(patterns: &[impl AsRef<[u8]>]) -> Subjects {
        let all = || patterns.iter().map(|pattern| tokens(pattern.as_ref()));
        let deepest = all().map(Iterator::count).max().unwrap_or(0);
        let literals = all().flatten();
        let literals = literals.filter(|&token| token != STAR && token != TAIL);
        let mut words: Vec<&[u8]> = literals.chain([FILLER]).collect();
        words.sort_unstable();
        words.dedup();
        let other = b"abcdefghijklmnopqrstuvwxyz".chunks(1);
        words.extend(other.rev().find(|other| !words.contains(other)));
        let subjects = runs(&words, deepest + 1).into_iter().skip(1);
        let mut texts: Vec<Vec<u8>> = subjects.map(|run| run.join(&b'.')).collect();
        texts.sort_by_key(Vec::len);
        Subjects { texts }
    }

    pub fn count(&self) -> usize {
        self.texts.len()
    }

    /// Which of them a pattern matches, by the original.
    pub fn matched_by(&self, pattern: &[u8]) -> Matched {
        let bit = |bits, text: &Vec<u8>| bits << 1 | u64::from(matches(pattern, text));
        let word = |texts: &[Vec<u8>]| texts.iter().rev().fold(0, bit);
        Matched(self.texts.chunks(64).map(word).collect())
    }

    /// The fewest bytes of a subject that two patterns match.
    pub fn fewest(&self, first: &Matched, second: &Matched) -> Option<usize> {
        let words = first.0.iter().zip(&second.0);
        let words = words.map(|(one, other)| one & other);
        let (place, bits) = words.enumerate().find(|&(_, bits)| bits != 0)?;
        Some(self.texts[64 * place + bits.trailing_zeros() as usize].len())
    }
}

// The subject itself.

/// The bytes that a pattern asks for at a place; nothing if any token will do.
fn asked<'a>(pattern: &[&'a [u8]], place: usize) -> Option<&'a [u8]> {
    let token = pattern.get(place).copied();
    token.filter(|&token| token != STAR && token != TAIL)
}

/// The tokens of a shortest subject that both match, of any length: as many as the longer pattern has, for which the shorter one must end in `>`. None if there
/// is no such subject.
fn common<'a>(first: &[&'a [u8]], second: &[&'a [u8]]) -> Option<Vec<&'a [u8]>> {
    let depth = first.len().max(second.len());
    let reaches = |pattern: &[&[u8]]| pattern.len() == depth || pattern.last() == Some(&TAIL);
    if !reaches(first) || !reaches(second) {
        return None;
    }
    let token = |place| match (asked(first, place), asked(second, place)) {
        (Some(one), Some(other)) if one != other => None,
        (one, other) => Some(one.or(other).unwrap_or(FILLER)),
    };
    (0..depth).map(token).collect()
}

/// What is due for two patterns.
pub enum Due {
    /// The answer to a pattern that is refused, and which of the two it is.
    Refused(usize, Answer),
    /// No subject of any length matches both.
    Apart,
    /// A shortest subject that both match has so many bytes, more than a text may have.
    TooLong(usize),
    /// This is a shortest subject that both match.
    Shown(Vec<u8>),
}

impl Due {
    pub fn new(patterns: Patterns) -> Due {
        if let Some((which, refusal)) = refused(patterns) {
            return Due::Refused(which, refusal);
        }
        let [first, second] = patterns.map(|pattern| tokens(pattern).collect::<Vec<_>>());
        match common(&first, &second).map(|tokens| tokens.join(&b'.')) {
            None => Due::Apart,
            Some(text) if text.len() > MAX_TEXT => Due::TooLong(text.len()),
            Some(text) => Due::Shown(text),
        }
    }

    /// The fewest bytes of an accepted subject that both match.
    pub fn fewest(&self) -> Option<usize> {
        match self {
            Due::Shown(subject) => Some(subject.len()),
            _ => None,
        }
    }

    /// What is answered to a call with an output of so many bytes, and what is written to it.
    pub fn with_output(&self, length: usize) -> (Answer, &[u8]) {
        match self {
            Due::Refused(_, refusal) => (*refusal, b""),
            Due::Apart | Due::TooLong(_) => (answer(0, &[]), b""),
            Due::Shown(subject) if subject.len() > length => (answer(21, &[subject.len()]), b""),
            Due::Shown(subject) => (answer(0, &[1, subject.len()]), subject),
        }
    }
}
