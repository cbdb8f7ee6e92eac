//! Caches of about 1,024 slots: over areas that just hold them or lack a place, used up or by one too many, the last used slot at its limits.
use crate::cabinet::{Ask, Cabinet, Cache, Form, Side};
use crate::calls::any_slots;
use crate::pools::Pool;
use crate::states::{compare_made, counter};
use crate::tally::{Family, Tally};
use compare::model_cache::{Head, Slots};
use compare::random::Random;
use router::limits::{kept_words, key_bytes, stamp_numbers};
use router::raw::CacheState;

/// What the last used slot, or the one behind it, may say: key length and number of targets.
const LASTS: [[usize; 2]; 6] = [
    [256, 16],
    [257, 16],
    [256, 17],
    [257, 17],
    [2048, 31],
    [1, 1],
];

/// What the slots keep.
const KEY: &[u8] = b"Z";

/// Slots that keep something, the last used one or the one behind it at its limits. Areas may lack a place that the capacity asks for.
fn slots(random: &mut Random, count: usize, capacity: usize, used: usize) -> Slots {
    let mut slots = any_slots(random, count);
    for slot in 0..count.min(capacity) {
        let mut head = Head::of(KEY, random.below(17));
        head.mark ^= [0, 0, 1, 1 << 8][random.below(4)];
        slots.put(capacity, slot, head, KEY);
    }
    let at = used - random.below(2);
    if at < count.min(capacity) {
        let [length, targets] = LASTS[random.below(LASTS.len())];
        let head = Head {
            length,
            targets,
            ..Head::of(KEY, 0)
        };
        slots.put(capacity, at, head, KEY);
        slots.stamps[at] = [0, u64::MAX][random.below(2)];
    }
    match random.below(8) {
        0 => slots.stamps.truncate(stamp_numbers(capacity) - 1),
        1 => slots.keys.truncate(key_bytes(capacity) - 1),
        2 => slots.kept.truncate(kept_words(capacity) - 1),
        _ => (),
    }
    slots
}

pub fn run(tally: &mut Tally, random: &mut Random) {
    let pool = Pool::small(tally, random);
    for _ in 0..800 {
        let [count, capacity, used] = [1023, 1023, 1022].map(|least| least + random.below(3));
        let slots = slots(random, count, capacity, used);
        compare_made(tally, capacity, &slots);
        let state = CacheState {
            capacity,
            used,
            generation: random.below(2) as u64,
            tick: counter(random),
            walks: counter(random),
        };
        let side = Side::standing(&pool.tables[0].table, Cache { state, slots });
        let mut cabinet = Cabinet::new(side, None);
        for subject in [&b"a"[..], KEY, b"a.b"] {
            let ask = Ask {
                on: 0,
                subject,
                places: 40,
            };
            cabinet.resolve(tally, Form::List, ask, None);
        }
    }
    tally.report(Family::Calls, "caches of about 1,024 slots, made by hand");
}
