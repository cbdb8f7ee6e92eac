//! Full caches with the smallest stamp in any slot, alone or in others behind it too: the first of these is the slot that a new list goes to.
use super::hand::{ask, filled, places, Ground, CAPACITIES};
use super::met::Event;
use crate::cabinet::Cache;
use crate::tally::{Family, Tally};
use compare::model_cache::Way;
use compare::random::Random;

const SUBJECT: &[u8] = b"list.16";

/// The smallest stamp and that of all other slots: at both ends of the numbers, and around the middle of their bits.
const STAMPS: [[u64; 2]; 5] = [
    [0, 1],
    [0, u64::MAX],
    [u64::MAX - 1, u64::MAX],
    [(1 << 63) - 1, 1 << 63],
    [(1 << 32) - 1, 1 << 32],
];

/// A slot alone, with the next, with the last, and with all behind it.
fn groups(capacity: usize, slot: usize) -> [Vec<usize>; 4] {
    let last = capacity - 1;
    [
        vec![slot],
        vec![slot, last.min(slot + 1)],
        vec![slot, last],
        (slot..capacity).collect(),
    ]
}

/// The slots of a group have the smallest stamp.
fn each_stamp(
    tally: &mut Tally,
    random: &mut Random,
    ground: &Ground,
    cache: &Cache,
    group: &[usize],
) {
    for [smallest, other] in STAMPS {
        let mut cache = cache.clone();
        cache.slots.stamps.fill(other);
        for &slot in group {
            cache.slots.stamps[slot] = smallest;
        }
        let capacity = cache.state.capacity;
        let note = format!("  stamps {other}, but {smallest} of {group:?}\n");
        let mut cabinet = ground.cabinet(cache, &note);
        let way = ask(tally, random, &mut cabinet, SUBJECT);
        let event = Event::Oldest {
            capacity,
            slot: group[0],
            equal_stamps: way == Way::Dropped { equal_stamps: true },
        };
        tally.seen.slots.event(event);
    }
}

pub fn run(tally: &mut Tally, random: &mut Random, ground: &Ground) {
    for capacity in CAPACITIES {
        let full = filled(random, capacity, capacity, capacity);
        for slot in places(capacity) {
            for group in groups(capacity, slot) {
                each_stamp(tally, random, ground, &full, &group);
            }
        }
    }
    let part = "full caches of 1 to 1,024 slots with the smallest stamp in any slot";
    tally.report(Family::Calls, part);
}
