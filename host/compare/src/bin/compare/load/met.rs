//! What the calls that make texts must bring up, each at least once.
use crate::met::Met;
use compare::made;
use compare::model_load::{Kind, KINDS, MOST_BYTES, MOST_TOKENS};

/// Outputs of up to so many bytes are lent, two more than any text has.
pub const MOST_LENT: usize = MOST_BYTES + 2;

#[derive(Clone, Copy, Debug, PartialEq, Eq, PartialOrd, Ord)]
pub enum Event {
    /// What is drawn for the token at a place, from 1 on, of so many.
    Token {
        drawn: u64,
        place: usize,
        count: usize,
    },
    /// A text of so many bytes, and an output of so many: too short, or not.
    Output { bytes: usize, length: usize },
    /// The start 0, and an output of so many bytes.
    Zero { length: usize },
}

/// How many tokens are drawn from.
pub fn choices(kind: Kind) -> u64 {
    match kind {
        Kind::Pattern => 10,
        Kind::Subject => 8,
    }
}

fn tokens(kind: Kind) -> Vec<Event> {
    let mut all = Vec::new();
    for count in 1..=MOST_TOKENS {
        for place in 1..=count {
            let token = |drawn| Event::Token {
                drawn,
                place,
                count,
            };
            all.extend((0..choices(kind)).map(token));
        }
    }
    all
}

fn outputs() -> Vec<Event> {
    let mut all = Vec::new();
    for bytes in (1..=MOST_BYTES).step_by(2) {
        all.extend((0..=MOST_LENT).map(|length| Event::Output { bytes, length }));
    }
    all
}

/// All that must come up, by what it is.
fn due(kind: Kind) -> [(&'static str, Vec<Event>); 3] {
    let zero = (0..=MOST_LENT).map(|length| Event::Zero { length });
    [
        ("tokens by draw, place and count", tokens(kind)),
        ("lengths of a text and of its output", outputs()),
        ("lengths of an output for the start 0", zero.collect()),
    ]
}

/// Prints what came up. What never did, though it must.
pub fn report(met: &Met<(Kind, Event)>) -> Vec<String> {
    let mut missing = Vec::new();
    for kind in KINDS {
        for (about, events) in due(kind) {
            let events = events.into_iter().map(|event| (kind, event));
            missing.extend(met.report(made::name(kind), about, events.collect()));
        }
    }
    missing
}
