//! What resolves on caches made by hand must bring up, each at least once: every slot of interest in every state of interest.
use super::hand::{behind, counts, places, CAPACITIES, MOST_LISTED};
use super::{bad, lengths, short};
use crate::byte_limit;
use crate::met::Met;
use crate::sights::Sight;
use router::limits::{KEY_BYTES, SLOT_TARGETS};

#[derive(Clone, Copy, Debug, PartialEq, Eq, PartialOrd, Ord)]
pub enum Event {
    /// A slot that looks so to the subject, and whether it was a hit.
    Place {
        capacity: usize,
        used: usize,
        slot: usize,
        sight: Sight,
        hit: bool,
    },
    /// Two slots that look so to the subject, in one run of 32 or not, in a full cache or not, and whether it was a hit.
    Pair {
        sights: [Sight; 2],
        one_run: bool,
        full: bool,
        hit: bool,
    },
    /// A slot that says such a length and number of targets, and whether that was refused.
    Size {
        capacity: usize,
        used: usize,
        slot: usize,
        size: [usize; 2],
        refused: bool,
    },
    /// Areas that are too short in one of them, or in none.
    Short {
        capacity: usize,
        lacks: Option<short::Area>,
        refused: bool,
    },
    /// A subject of so many bytes, of one byte each or not, and whether it was a hit.
    Length {
        length: usize,
        script: lengths::Script,
        hit: bool,
    },
    /// A list of so many targets and an output of so many places; whether it was a hit, and whether it was refused.
    List {
        targets: usize,
        places: usize,
        hit: bool,
        refused: bool,
    },
    /// The first slot of smallest stamp, and whether another has the same.
    Oldest {
        capacity: usize,
        slot: usize,
        equal_stamps: bool,
    },
    /// Areas of so many bytes for a call on bytes.
    Bytes {
        capacity: usize,
        total: usize,
        hit: bool,
    },
}

/// No; and yes too, if that can be.
fn no_and_yes(can_be: bool) -> impl Iterator<Item = bool> {
    [false, true].into_iter().filter(move |yes| !yes || can_be)
}

fn each_place() -> Vec<Event> {
    let mut all = Vec::new();
    for capacity in CAPACITIES {
        for used in counts(capacity) {
            let slots = places(capacity).into_iter().chain(behind(capacity));
            for slot in slots {
                all.extend(Sight::all().map(|sight| Event::Place {
                    capacity,
                    used,
                    slot,
                    sight,
                    hit: slot < used && sight.keeps(),
                }));
            }
        }
    }
    all
}

fn each_pair() -> Vec<Event> {
    let mut all = Vec::new();
    for first in Sight::all() {
        for second in Sight::all() {
            let hit = first.keeps() || second.keeps();
            for (one_run, full) in [(true, true), (true, false), (false, true), (false, false)] {
                all.push(Event::Pair {
                    sights: [first, second],
                    one_run,
                    full,
                    hit,
                });
            }
        }
    }
    all
}

/// Whether a slot cannot hold so long a key or so many targets.
fn over([length, targets]: [usize; 2]) -> bool {
    length > KEY_BYTES || targets > SLOT_TARGETS
}

fn each_size() -> Vec<Event> {
    let mut all = Vec::new();
    for capacity in CAPACITIES {
        for used in counts(capacity) {
            let cases = bad::cases(capacity, used).into_iter();
            all.extend(cases.map(|(slot, size)| Event::Size {
                capacity,
                used,
                slot,
                size,
                refused: slot < used && over(size),
            }));
        }
    }
    all
}

/// Each list is found by a walk and, unless it is too long to be kept, in the cache; or refused as the output is too short, either way.
fn each_list() -> Vec<Event> {
    let mut all = Vec::new();
    for targets in 0..=MOST_LISTED {
        let kept = targets <= SLOT_TARGETS;
        for places in [targets.saturating_sub(1), targets, targets + 1] {
            let refused = places < targets;
            all.extend(no_and_yes(kept && !refused).map(|hit| Event::List {
                targets,
                places,
                hit,
                refused,
            }));
        }
    }
    all
}

/// In each slot the only smallest stamp; and with another behind it, if one is.
fn each_oldest() -> Vec<Event> {
    let mut all = Vec::new();
    for capacity in CAPACITIES {
        for slot in places(capacity) {
            all.extend(
                no_and_yes(slot + 1 < capacity).map(|equal_stamps| Event::Oldest {
                    capacity,
                    slot,
                    equal_stamps,
                }),
            );
        }
    }
    all
}

fn each_short() -> Vec<Event> {
    let lacking = |capacity| {
        short::LACKS.map(|lacks| Event::Short {
            capacity,
            lacks,
            refused: lacks.is_some(),
        })
    };
    CAPACITIES.into_iter().flat_map(lacking).collect()
}

/// A subject of over 256 bytes is never a hit.
fn each_length() -> Vec<Event> {
    let mut all = Vec::new();
    for length in lengths::LENGTHS {
        for script in lengths::SCRIPTS {
            all.extend(no_and_yes(length <= KEY_BYTES).map(|hit| Event::Length {
                length,
                script,
                hit,
            }));
        }
    }
    all
}

fn each_total() -> Vec<Event> {
    let mut all = Vec::new();
    for capacity in byte_limit::CAPACITIES {
        for total in byte_limit::TOTALS {
            all.extend(no_and_yes(true).map(|hit| Event::Bytes {
                capacity,
                total,
                hit,
            }));
        }
    }
    all
}

/// Prints what came up. What never did, though it must.
pub fn report(met: &Met<Event>) -> Vec<String> {
    let all = [
        (
            "looks of a slot by capacity, slots in use and place",
            each_place(),
        ),
        (
            "looks of two slots, in one run or two, full or not",
            each_pair(),
        ),
        (
            "lengths and numbers of targets by capacity, slots in use and place",
            each_size(),
        ),
        (
            "areas that are long enough or not by capacity",
            each_short(),
        ),
        ("lengths of a subject, hit or not", each_length()),
        ("lengths of a list and an output", each_list()),
        ("places of the smallest stamp by capacity", each_oldest()),
    ];
    let mut missing = Vec::new();
    for (about, events) in all {
        missing.extend(met.report("resolve", about, events));
    }
    let about = "sizes of the areas by capacity, hit or not";
    missing.extend(met.report("resolve_bytes", about, each_total()));
    missing
}
