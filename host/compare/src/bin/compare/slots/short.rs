//! Areas that just hold a cache, or lack one place or more: 17. So is a capacity over 1,024, whatever areas it has.
use super::hand::{ask, filled, Ground, CAPACITIES};
use super::met::Event;
use crate::states::compare_made;
use crate::tally::{Family, Tally};
use compare::model_cache::{Slots, Stage, Way};
use compare::random::Random;
use router::limits::MAX_CAPACITY;

#[derive(Clone, Copy, Debug, PartialEq, Eq, PartialOrd, Ord)]
pub enum Area {
    Stamps,
    Keys,
    Kept,
}

/// No area lacks a place, or one does.
pub const LACKS: [Option<Area>; 4] = [None, Some(Area::Stamps), Some(Area::Keys), Some(Area::Kept)];

/// Capacities that are too large. Times 8, 16, 256 or 260 most of them are small, but for the bits beyond 64.
const TOO_LARGE: [usize; 9] = [
    MAX_CAPACITY + 1,
    2 * MAX_CAPACITY,
    1 << 32,
    usize::MAX / 260 + 1,
    1 << 56,
    1 << 60,
    1 << 61,
    1 << 62,
    usize::MAX,
];

const SUBJECT: &[u8] = b"list.3";

/// An area is made shorter by so many places.
fn cut(slots: &mut Slots, area: Area, places: usize) {
    match area {
        Area::Stamps => slots.stamps.truncate(slots.stamps.len() - places),
        Area::Keys => slots.keys.truncate(slots.keys.len() - places),
        Area::Kept => slots.kept.truncate(slots.kept.len() - places),
    }
}

/// How many places an area may lack: one, those of a list, those of a slot, or all.
fn cuts(slots: &Slots, capacity: usize, area: Area) -> Vec<usize> {
    match area {
        Area::Stamps => vec![1, slots.stamps.len()],
        Area::Keys => vec![1, capacity, 4 * capacity, 256, slots.keys.len()],
        Area::Kept => vec![1, 16, slots.kept.len()],
    }
}

fn each_area(tally: &mut Tally, random: &mut Random, ground: &Ground, capacity: usize) {
    for lacks in LACKS {
        for used in [0, capacity] {
            let cache = filled(random, capacity, capacity, used);
            let places = lacks.map_or(vec![0], |area| cuts(&cache.slots, capacity, area));
            for places in places {
                let mut cache = cache.clone();
                if let Some(area) = lacks {
                    cut(&mut cache.slots, area, places);
                }
                compare_made(tally, capacity, &cache.slots);
                let mut cabinet = ground.cabinet(cache, "");
                let way = ask(tally, random, &mut cabinet, SUBJECT);
                let event = Event::Short {
                    capacity,
                    lacks,
                    refused: way == Way::Refused(Stage::Cache),
                };
                tally.seen.slots.event(event);
            }
        }
    }
}

pub fn run(tally: &mut Tally, random: &mut Random, ground: &Ground) {
    for capacity in CAPACITIES {
        each_area(tally, random, ground, capacity);
    }
    for capacity in TOO_LARGE {
        for room in [1, MAX_CAPACITY + 1] {
            let mut cache = filled(random, room, 1, 1);
            compare_made(tally, capacity, &cache.slots);
            cache.state.capacity = capacity;
            ask(tally, random, &mut ground.cabinet(cache, ""), SUBJECT);
        }
    }
    let part = "caches of 1 to 1,024 slots over areas that lack some places or none, and of more";
    tally.report(Family::Calls, part);
}
