//! Texts that the router makes.
use crate::lists::Line;
use crate::model_load::{Kind, MOST_BYTES};
use router::raw::{self, MadeText};

/// The call that makes a text.
pub fn call(kind: Kind) -> fn(u64, &mut [u8]) -> MadeText {
    match kind {
        Kind::Pattern => raw::make_pattern,
        Kind::Subject => raw::make_subject,
    }
}

/// The name of that call.
pub const fn name(kind: Kind) -> &'static str {
    match kind {
        Kind::Pattern => "make_pattern",
        Kind::Subject => "make_subject",
    }
}

/// A text made from a state, which becomes the one behind it.
pub fn text(kind: Kind, state: &mut u64) -> Vec<u8> {
    let mut out = [0; MOST_BYTES];
    let made = call(kind)(*state, &mut out);
    assert_eq!(made.number, 0, "a text of the most bytes fits");
    *state = made.state;
    out[..made.value as usize].to_vec()
}

/// So many texts, each made from the state behind the last one.
pub fn texts(kind: Kind, count: usize, state: &mut u64) -> Vec<Vec<u8>> {
    (0..count).map(|_| text(kind, state)).collect()
}

/// The list that `yard load` writes: so many made patterns, with targets from 1 on.
pub fn lines(count: usize, state: &mut u64) -> Vec<Line> {
    let patterns = texts(Kind::Pattern, count, state).into_iter();
    patterns.zip(1..).collect()
}
