//! A whole move routed together (request 2026-05), written from the request's words, apart from the router: what the call answers and what it writes.
//! Snapshot, area, bytes and spans may be any.
use crate::area::Words;
use crate::model_binding::single_home;
use crate::model_snapshot::standing;
use crate::original;
use router::raw::{Answer, Move, SnapshotState};

/// "A shunt sets up to 64 points"
pub const MOST_SUBJECTS: usize = 64;

/// What a move is lent but for its output: the standing table, and subjects by two numbers each, start and length in the bytes.
#[derive(Clone, Copy, Debug)]
pub struct Asked<'a> {
    pub snapshot: SnapshotState,
    pub area: &'a [u32],
    pub bytes: &'a [u8],
    pub spans: &'a [usize],
}

/// What a move comes to.
#[derive(Clone, Debug, PartialEq, Eq)]
pub enum Due {
    /// "22 SetTooLarge, over 64 subjects"
    TooLarge,
    /// "A subject lying outside the lent bytes is BadEntry with its place"
    Outside { place: usize },
    /// "A subject's own refusal carries its place in the list"
    Refused { place: usize, refusal: Answer },
    /// 19, as the counts of the standing table do not fit.
    NoTable,
    /// 19, met in the walk of the subject at this place. The place is not told.
    Damaged { place: usize },
    /// "names the first that is not Routed and its verdict"
    Stopped { place: usize, kind: u64, value: u64 },
    /// "An output too short for all targets is refusal 21"
    Short { needed: usize },
    /// "writes each one's Routed target in list order"
    Routed(Vec<u32>),
}

impl Asked<'_> {
    /// How many subjects there are. A number left over counts for none.
    pub fn count(&self) -> usize {
        self.spans.len() / 2
    }

    /// The bytes of a subject, unless some lie outside: start plus length exceeds the lent bytes.
    fn subject(&self, place: usize) -> Option<&[u8]> {
        let (start, length) = (self.spans[2 * place], self.spans[2 * place + 1]);
        self.bytes.get(start..start.checked_add(length)?)
    }

    /// All subjects, unless one lies outside.
    pub fn inside(&self) -> Option<Vec<&[u8]>> {
        (0..self.count()).map(|place| self.subject(place)).collect()
    }

    /// All subjects, accepted. "the earliest such subject decides before any verdict", and one that lies outside does so "at its turn".
    fn accepted(&self) -> Result<Vec<&[u8]>, Due> {
        let accepted = |place| {
            let subject = self.subject(place).ok_or(Due::Outside { place })?;
            let refusal = original::parse_literal(subject);
            if !refusal.accepted() {
                return Err(Due::Refused { place, refusal });
            }
            Ok(subject)
        };
        (0..self.count()).map(accepted).collect()
    }
}

/// The one target of a subject, or what ends the move. "no subject after it is walked"
fn target(table: Words, place: usize, subject: &[u8]) -> Result<u32, Due> {
    let Ok((list, _)) = table.walk(subject) else {
        return Err(Due::Damaged { place });
    };
    match list[..] {
        [target] => Ok(target),
        _ => {
            let (kind, value) = single_home(&list);
            Err(Due::Stopped { place, kind, value })
        }
    }
}

/// Every target, all from the standing table, or what ends the move.
fn targets(asked: Asked) -> Result<Vec<u32>, Due> {
    if asked.count() > MOST_SUBJECTS {
        return Err(Due::TooLarge);
    }
    let subjects = asked.accepted()?.into_iter().enumerate();
    let table = standing(asked.snapshot, asked.area).ok_or(Due::NoTable)?;
    let targets = subjects.map(|(place, subject)| target(table, place, subject));
    targets.collect()
}

impl Due {
    /// What a move comes to that is lent an output of so many places.
    pub fn new(asked: Asked, places: usize) -> Due {
        let due = targets(asked).map_or_else(|end| end, Due::Routed);
        due.within(places)
    }

    /// "after the verdicts": all are Routed, and then their targets must fit.
    pub fn within(self, places: usize) -> Due {
        match self {
            Due::Routed(targets) if targets.len() > places => Due::Short {
                needed: targets.len(),
            },
            due => due,
        }
    }

    /// The answer: a number, and the values that belong to it.
    pub fn answer(&self) -> Move {
        let (number, [first, second, third, fourth]) = match *self {
            Due::TooLarge => (22, [0; 4]),
            Due::Outside { place } => (12, [place as u64, 0, 0, 0]),
            Due::Refused { place, refusal } => {
                let values = [place as u64, refusal.first, refusal.second, refusal.third];
                (refusal.number, values)
            }
            Due::NoTable | Due::Damaged { .. } => (19, [0; 4]),
            Due::Stopped { place, kind, value } => (0, [1, place as u64, kind, value]),
            Due::Short { needed } => (21, [needed as u64, 0, 0, 0]),
            Due::Routed(ref targets) => (0, [0, targets.len() as u64, 0, 0]),
        };
        Move {
            number,
            first,
            second,
            third,
            fourth,
        }
    }

    /// What is written to the output from its first place on. "half a route is worse than none"
    pub fn written(&self) -> &[u32] {
        match self {
            Due::Routed(targets) => targets,
            _ => &[],
        }
    }
}
