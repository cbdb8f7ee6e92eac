//! The original's answers, in the form in which the C library gives its own.
//! Refusals 1 and 2 are not the original's: they are decided here, by the standard library, and the original is then not called.
use crate::lists::Line;
use oracle::subject::{Subject, SubjectError, SubjectPattern};
use oracle::sublist::{Sublist, SublistBuilder, SublistError};
use router::raw::Answer;
use std::str::{from_utf8, Utf8Error};
use xxhash_rust::xxh3::xxh3_64;

/// The most bytes that a text may have.
pub const MAX_TEXT: usize = 4096;

/// Why the original refuses a text, or is not called.
enum Refusal {
    TooLong,
    NotUtf8(Utf8Error),
    Original(SubjectError),
}

impl From<Utf8Error> for Refusal {
    fn from(e: Utf8Error) -> Refusal {
        Refusal::NotUtf8(e)
    }
}

impl From<SubjectError> for Refusal {
    fn from(e: SubjectError) -> Refusal {
        Refusal::Original(e)
    }
}

impl From<Refusal> for Answer {
    fn from(refusal: Refusal) -> Answer {
        let at = |index: usize| index as u64;
        let (number, first, second) = match refusal {
            Refusal::TooLong => (1, 0, 0),
            Refusal::NotUtf8(e) => (2, at(e.valid_up_to()), 0),
            Refusal::Original(SubjectError::Empty) => (3, 0, 0),
            Refusal::Original(SubjectError::TailWildcardNotLast { index }) => (4, at(index), 0),
            Refusal::Original(SubjectError::TooDeep { depth }) => (5, at(depth), 0),
            Refusal::Original(SubjectError::EmptyToken { index }) => (6, at(index), 0),
            Refusal::Original(SubjectError::WildcardNotAllowed { ch, index }) => {
                (7, ch.into(), at(index))
            }
            Refusal::Original(SubjectError::ControlChar { ch, index }) => (8, ch.into(), at(index)),
            Refusal::Original(SubjectError::IllegalChar { ch, index }) => (9, ch.into(), at(index)),
            Refusal::Original(e) => panic!("a refusal of the original without a number: {e}"),
        };
        Answer {
            number,
            first,
            second,
            third: 0,
        }
    }
}

fn text_of(bytes: &[u8]) -> Result<&str, Refusal> {
    if bytes.len() > MAX_TEXT {
        return Err(Refusal::TooLong);
    }
    Ok(from_utf8(bytes)?)
}

fn subject_of(bytes: &[u8]) -> Result<Subject<'_>, Refusal> {
    Ok(Subject::parse_literal(text_of(bytes)?)?)
}

/// A subject of the original, or the refusal.
pub fn subject(bytes: &[u8]) -> Result<Subject<'_>, Answer> {
    subject_of(bytes).map_err(Answer::from)
}

fn pattern_of(bytes: &[u8]) -> Result<SubjectPattern<'_>, Refusal> {
    Ok(SubjectPattern::parse(text_of(bytes)?)?)
}

fn answer(result: Result<u64, Refusal>) -> Answer {
    match result {
        Ok(value) => Answer {
            first: value,
            ..Answer::default()
        },
        Err(refusal) => refusal.into(),
    }
}

/// `Subject::parse_literal`: the token count, or the refusal.
pub fn parse_literal(text: &[u8]) -> Answer {
    answer(subject_of(text).map(|subject| subject.depth() as u64))
}

/// `SubjectPattern::parse`: the token count, or the refusal.
pub fn parse(text: &[u8]) -> Answer {
    answer(pattern_of(text).map(|pattern| pattern.depth() as u64))
}

/// `SubjectPattern::matches`, behind the two parses.
pub fn matches(pattern: &[u8], subject: &[u8]) -> Answer {
    let verdict = || Ok(pattern_of(pattern)?.matches(&subject_of(subject)?).into());
    answer(verdict())
}

/// `SubjectPattern::depth` and `has_tail_wildcard`. The original has them for patterns only; for any other text they are read off its tokens.
pub fn depth_and_tail(text: &[u8]) -> (u64, bool) {
    if let Ok(pattern) = pattern_of(text) {
        return (pattern.depth() as u64, pattern.has_tail_wildcard());
    }
    let tokens = text.split(|&byte| byte == b'.');
    let tail = tokens.clone().next_back() == Some(b">");
    (tokens.count() as u64, tail)
}

/// `SubjectPattern::tokens`: where each token stands, start and end. The original has them for patterns only; any other text is split at its dots.
pub fn tokens(text: &[u8]) -> impl Iterator<Item = (usize, usize)> + '_ {
    let pattern = pattern_of(text).ok();
    let other = pattern.is_none().then(|| text.split(|&byte| byte == b'.'));
    let tokens = pattern.into_iter().flat_map(|pattern| pattern.tokens());
    let tokens = tokens.map(str::as_bytes).chain(other.into_iter().flatten());
    tokens.scan(0, |next, token| {
        let start = *next;
        let end = start + token.len();
        *next = end + 1;
        Some((start, end))
    })
}

/// The hash by which the original's table tells tokens apart.
pub fn token_hash(token: &[u8]) -> u64 {
    xxh3_64(token)
}

/// A refusal 1 to 9, as 13 holds it.
pub fn held(refusal: Answer) -> Answer {
    Answer {
        number: 13,
        first: refusal.number,
        second: refusal.first,
        third: refusal.second,
    }
}

/// `SublistBuilder`: each line is inserted, and the table is built.
pub fn build(lines: &[Line], generation: u64) -> Result<Sublist<u32>, Answer> {
    let mut builder = SublistBuilder::new();
    for (pattern, target) in lines {
        let text = text_of(pattern).map_err(|refusal| held(refusal.into()))?;
        builder
            .insert(text, *target)
            .map_err(|e| held(Refusal::Original(e).into()))?;
    }
    builder.build(generation).map_err(|e| match e {
        SublistError::InvalidPattern(e) => held(Refusal::Original(e).into()),
        SublistError::ForkLimitExceeded { worst_case, limit } => Answer {
            number: 16,
            first: worst_case as u64,
            second: limit as u64,
            third: 0,
        },
        e => panic!("a refusal of the original without a number: {e}"),
    })
}

/// `Sublist::match_into`: the list is put into `out`. Its length, or the refusal of the subject.
pub fn match_subject(table: &Sublist<u32>, subject: &[u8], out: &mut Vec<u32>) -> Answer {
    answer(subject_of(subject).map(|subject| {
        table.match_into(&subject, out);
        out.len() as u64
    }))
}
