//! Slots that say of themselves what no call leaves there: keys of 257 bytes to 2,048, 17 targets to 31. 18, if they are in use.
use super::hand::{ask, counts, ends, filled, places, Ground, CAPACITIES};
use super::met::Event;
use crate::cabinet::Cache;
use crate::tally::{Family, Tally};
use compare::model_cache::{Head, Stage, Way};
use compare::model_mark::mark;
use compare::random::Random;
use router::raw::CacheState;

/// Lengths and numbers of targets that a slot can say.
const LENGTHS: [usize; 8] = [1, SUBJECT.len(), 255, 256, 257, 512, 513, 2048];
const TARGETS: [usize; 6] = [0, 1, 15, 16, 17, 31];

/// Both as large as may be, or one too large, or both.
const SIZES: [[usize; 2]; 4] = [[256, 16], [257, 0], [1, 17], [257, 17]];

const SUBJECT: &[u8] = b"a.b";

/// One slot, in use, whose first two bytes may be any.
fn every_byte(tally: &mut Tally, random: &mut Random, ground: &Ground) {
    let cache = filled(random, 1, 1, 1);
    for length in 1..=256 {
        for second in 0..=255 {
            let mut cache = cache.clone();
            let head = Head {
                length,
                ..Head::of(SUBJECT, 0)
            };
            cache.slots.put(1, 0, head, SUBJECT);
            cache.slots.keys[1] = second;
            let note = format!("  bytes {} and {second} of the slot\n", length - 1);
            let mut cabinet = ground.cabinet(cache, &note);
            ask(tally, random, &mut cabinet, SUBJECT);
        }
    }
    let part = "one slot in use, its lengths and numbers of targets by every two bytes";
    tally.report(Family::Calls, part);
}

/// Slots of a cache, and what each may say in turn, length and number of targets: all of these at the ends of the slots in use, some in any slot.
pub fn cases(capacity: usize, used: usize) -> Vec<(usize, [usize; 2])> {
    let mut cases = Vec::new();
    for slot in ends(capacity, used) {
        for length in LENGTHS {
            cases.extend(TARGETS.map(|targets| (slot, [length, targets])));
        }
    }
    for slot in places(capacity) {
        cases.extend(SIZES.map(|size| (slot, size)));
    }
    cases
}

/// A slot says such a length and number of targets.
fn sized(
    tally: &mut Tally,
    random: &mut Random,
    ground: &Ground,
    mut cache: Cache,
    slot: usize,
    size: [usize; 2],
) {
    let CacheState { capacity, used, .. } = cache.state;
    let [length, targets] = size;
    let head = Head {
        length,
        targets,
        mark: mark(SUBJECT),
    };
    cache.slots.put(capacity, slot, head, SUBJECT);
    let mut cabinet = ground.cabinet(cache, &format!("  slot {slot}: {head:?}\n"));
    let way = ask(tally, random, &mut cabinet, SUBJECT);
    let event = Event::Size {
        capacity,
        used,
        slot,
        size,
        refused: way == Way::Refused(Stage::Cache),
    };
    tally.seen.slots.event(event);
}

/// More slots in use than there are, by one or by many; and no slot at all.
fn counts_over(tally: &mut Tally, random: &mut Random, ground: &Ground) {
    for capacity in CAPACITIES {
        let over = [capacity + 1, capacity + 32, 1 << 32, usize::MAX];
        let states = over.map(|used| [capacity, used]);
        for [capacity, used] in states.into_iter().chain([[0, 0], [0, capacity]]) {
            let mut cache = filled(random, capacity.max(1), capacity, 0);
            cache.state.used = used;
            let mut cabinet = ground.cabinet(cache, "");
            ask(tally, random, &mut cabinet, SUBJECT);
        }
    }
}

pub fn run(tally: &mut Tally, random: &mut Random, ground: &Ground) {
    every_byte(tally, random, ground);
    for capacity in CAPACITIES {
        for used in counts(capacity) {
            let cache = filled(random, capacity, capacity, used);
            for (slot, size) in cases(capacity, used) {
                sized(tally, random, ground, cache.clone(), slot, size);
            }
        }
    }
    counts_over(tally, random, ground);
    let part =
        "one slot of caches of 1 to 1,024 at the limits of its key and targets, in use or not";
    tally.report(Family::Calls, part);
}
