//! Snapshots and caches on all sides: the router's with lent areas, the same by the definitions, and the original's unless the state is made by hand.
//! Each call is made on every side; what it answers and every place of the areas lent to it are compared.
mod cache_calls;
mod snapshot_calls;

use crate::moves::Subjects;
use crate::tally::Tally;
use crate::theirs::{Numbers, Theirs};
pub use cache_calls::{Ask, Form};
use compare::area::Lent;
use compare::model_cache::Slots;
use router::raw::{CacheState, SnapshotState};
use std::fmt::Debug;
use std::mem::swap;

#[derive(Clone, Debug, Default)]
pub struct Cache {
    pub state: CacheState,
    pub slots: Slots,
}

/// A snapshot with its area.
#[derive(Clone, Debug, Default)]
pub struct Standing {
    pub snapshot: SnapshotState,
    pub area: Vec<u32>,
}

/// The snapshot at hand, on which calls are made, with its area; the other snapshots; the caches, which calls through any of them may use.
#[derive(Clone, Debug, Default)]
pub struct Side {
    pub snapshot: SnapshotState,
    pub area: Vec<u32>,
    pub others: Vec<Standing>,
    pub caches: Vec<Cache>,
}

/// A call, for the report of a difference.
enum Call {
    Store {
        nodes: usize,
        targets: usize,
    },
    Clear {
        on: usize,
    },
    /// Another snapshot is taken in hand.
    Turn {
        other: usize,
    },
    /// Of a subject, with so many places for the list; on a cache or on the snapshot alone.
    Asked {
        name: &'static str,
        on: Option<usize>,
        subject: Vec<u8>,
        places: usize,
    },
    /// A whole move of these subjects, with so many places for their targets.
    Moved {
        subjects: Subjects,
        places: usize,
    },
}

impl Call {
    fn asked(name: &'static str, on: Option<usize>, subject: &[u8], places: usize) -> Call {
        let subject = subject.to_vec();
        Call::Asked {
            name,
            on,
            subject,
            places,
        }
    }

    fn shown(&self) -> String {
        match self {
            Call::Store { nodes, targets } => {
                format!("  store of {nodes} nodes and {targets} targets\n")
            }
            Call::Clear { on } => format!("  clear of cache {on}\n"),
            Call::Turn { other } => {
                format!("  the snapshot at hand and other {other} change places\n")
            }
            Call::Asked {
                name,
                on,
                subject,
                places,
            } => {
                let on = on.map_or(String::new(), |on| format!(" on cache {on}"));
                let subject = subject.escape_ascii();
                format!("  {name}{on} of \"{subject}\", {places} places\n")
            }
            Call::Moved { subjects, places } => {
                let subjects = subjects.shown();
                format!("  whole_move of {subjects}, {places} places\n")
            }
        }
    }
}

pub struct Cabinet {
    ours: Side,
    due: Side,
    theirs: Option<Theirs>,
    began: String,
    calls: Vec<Call>,
}

/// The first place where two lists differ, and what stands there.
fn difference<T: PartialEq + Copy>(ours: &[T], due: &[T]) -> Option<(usize, T, T)> {
    if ours == due {
        return None;
    }
    let mut pairs = ours.iter().zip(due).enumerate();
    let found = pairs.find(|(_, (one, other))| one != other);
    found.map(|(place, (&one, &other))| (place, one, other))
}

/// Whether a call with an answer of this number is made on the original's side: one that an added number refuses is not. 1 and 2 are decided before it.
fn made_there(number: u64) -> bool {
    number <= 9
}

impl Side {
    /// A snapshot with this table, of generation 0, and a cache.
    pub fn standing(table: &Lent, cache: Cache) -> Side {
        Side {
            snapshot: SnapshotState {
                nodes: table.nodes,
                targets: table.targets,
                generation: 0,
                next: 1,
            },
            area: [&table.node_words[..], &table.target_words].concat(),
            others: Vec::new(),
            caches: vec![cache],
        }
    }

    fn turn(&mut self, other: usize) {
        let other = &mut self.others[other];
        swap(&mut self.snapshot, &mut other.snapshot);
        swap(&mut self.area, &mut other.area);
    }

    fn shown(&self) -> String {
        let area = format!("  {:?}, {} words\n", self.snapshot, self.area.len());
        let other = |other: &Standing| {
            let words = other.area.len();
            format!("  other: {:?}, {words} words\n", other.snapshot)
        };
        let others = self.others.iter().map(other).collect::<String>();
        let cache = |cache: &Cache| {
            let slots = &cache.slots;
            let lengths = [slots.stamps.len(), slots.keys.len(), slots.kept.len()];
            format!(
                "  {:?}, {lengths:?} stamps, bytes and targets\n",
                cache.state
            )
        };
        area + &others + &self.caches.iter().map(cache).collect::<String>()
    }
}

impl Cabinet {
    pub fn new(side: Side, theirs: Option<Theirs>) -> Cabinet {
        Cabinet {
            began: side.shown(),
            due: side.clone(),
            ours: side,
            theirs,
            calls: Vec::new(),
        }
    }

    /// The same with something more to be told of the states at first, where there is a difference.
    pub fn noted(mut self, note: &str) -> Cabinet {
        self.began += note;
        self
    }

    /// The states at first and now, and the calls between them.
    fn shown(&self) -> String {
        let calls: String = self.calls.iter().map(Call::shown).collect();
        let (began, now) = (&self.began, self.due.shown());
        format!("at first\n{began}calls, of which the last differs\n{calls}around the last\n{now}")
    }

    fn same<T: PartialEq + Debug>(&self, tally: &mut Tally, what: &str, ours: T, due: T) {
        tally.compare_on(what, || self.shown(), ours, due);
    }

    fn same_words<T>(&self, tally: &mut Tally, what: &str, ours: &[T], due: &[T])
    where
        T: PartialEq + Copy + Debug,
    {
        self.same(tally, what, difference(ours, due), None);
    }

    fn same_area(&self, tally: &mut Tally) {
        let (ours, due) = (&self.ours.area, &self.due.area);
        self.same_words(tally, "the snapshot's area", ours, due);
    }

    fn same_slots(&self, tally: &mut Tally, on: usize) {
        let (ours, due) = (&self.ours.caches[on].slots, &self.due.caches[on].slots);
        self.same_words(tally, "stamps", &ours.stamps, &due.stamps);
        self.same_words(tally, "keys", &ours.keys, &due.keys);
        self.same_words(tally, "kept targets", &ours.kept, &due.kept);
    }

    /// What the original's cache tells of itself, while it is compared in full.
    fn same_numbers(&self, tally: &mut Tally, on: usize) {
        let Some(theirs) = self.theirs.as_ref().filter(|theirs| theirs.in_full(on)) else {
            return;
        };
        let state = self.ours.caches[on].state;
        let ours = Numbers {
            capacity: state.capacity,
            len: state.used,
            generation: state.generation,
            walks: state.walks,
        };
        self.same(tally, "the original's cache", ours, theirs.numbers(on));
    }

    pub fn caches(&self) -> usize {
        self.due.caches.len()
    }

    /// The capacity that a cache has by its state.
    pub fn capacity(&self, on: usize) -> usize {
        self.due.caches[on].state.capacity
    }

    /// Another snapshot is taken in hand; the one at hand takes its place among the others.
    pub fn turn(&mut self, other: usize) {
        self.calls.push(Call::Turn { other });
        self.ours.turn(other);
        self.due.turn(other);
        if let Some(theirs) = &mut self.theirs {
            theirs.turn(other);
        }
    }

    /// A call is made on the snapshot at hand.
    fn meet(&mut self) {
        if let Some(theirs) = &mut self.theirs {
            theirs.meet();
        }
    }

    /// Whether a cache may rightly hold lists of another table.
    pub fn may_be_stale(&self) -> bool {
        self.theirs.as_ref().is_some_and(Theirs::twice)
    }

    /// Whether this cache is still compared with the original's in full, lists included.
    pub fn in_full(&self, on: usize) -> bool {
        self.theirs
            .as_ref()
            .is_some_and(|theirs| theirs.in_full(on))
    }

    /// All areas once more, when all calls are made.
    pub fn close(&mut self, tally: &mut Tally) {
        self.same_area(tally);
        self.same_snapshot(tally);
        for other in 0..self.due.others.len() {
            self.turn(other);
            self.same_area(tally);
            self.same_snapshot(tally);
        }
        for on in 0..self.caches() {
            self.same_slots(tally, on);
            self.same_numbers(tally, on);
        }
    }
}
