//! Resolves on bytes whose areas are together about 65,536 bytes: 99 from one byte more on, before any other check.
use crate::cabinet::{Ask, Cabinet, Cache, Form, Side};
use crate::calls::{any_slots, exact_slots};
use crate::copies::Odd;
use crate::pools::{Pool, Pooled};
use crate::slots::met::Event;
use crate::tables::{fresh_words, MOST_BYTES};
use crate::tally::{Family, Tally};
use compare::model_cache::{Slots, Way};
use compare::random::Random;
use router::raw::CacheState;

/// The bytes that a slot takes of the stamps and of the kept targets. A table of one node and two targets takes 72 too.
const SLOT: usize = 8 + 64;

/// Capacities of caches on bytes: some with much room for a table and an output, and the largest two that leave room for this table and its list.
pub const CAPACITIES: [usize; 8] = [1, 32, 33, 65, 744, 745, 908, 909];

/// And the largest, which leaves no room for any table.
const NO_TABLE: usize = MOST_BYTES / SLOT;

/// One byte less than the most, as many, and one more.
pub const TOTALS: [usize; 3] = [MOST_BYTES - 1, MOST_BYTES, MOST_BYTES + 1];

/// The places of an output that holds the table's list.
const PLACES: usize = 2;

/// The area that has all bytes which the others leave.
#[derive(Clone, Copy)]
enum Rest {
    Stamps,
    Kept,
    Area,
    Out,
}

fn cache(capacity: usize, slots: Slots) -> Cache {
    let state = CacheState {
        capacity,
        ..CacheState::default()
    };
    Cache { state, slots }
}

/// The bytes of the areas but for the keys, with an output of so many places.
fn bytes(side: &Side, places: usize) -> usize {
    let slots = &side.caches[0].slots;
    8 * slots.stamps.len() + 4 * (slots.kept.len() + side.area.len() + places)
}

/// Two subjects, the first of them twice, through a cache whose areas have so many bytes together.
fn exact(tally: &mut Tally, mut side: Side, total: usize, rest: Rest) {
    let mut places = PLACES;
    let left = total - bytes(&side, places);
    let mut odd = Odd::default();
    let slots = &mut side.caches[0].slots;
    let words = fresh_words(left / 4);
    match rest {
        Rest::Stamps => {
            slots.stamps.extend(vec![7; left / 8]);
            odd.stamps = left % 8;
        }
        Rest::Kept => {
            slots.kept.extend(words);
            odd.kept = left % 4;
        }
        Rest::Area => {
            side.area.extend(words);
            odd.area = left % 4;
        }
        Rest::Out => {
            places += words.len();
            odd.out = left % 4;
        }
    }
    let capacity = side.caches[0].state.capacity;
    let mut cabinet = Cabinet::new(side, None);
    for subject in [&b"a"[..], b"a", b"b"] {
        let ask = Ask {
            on: 0,
            subject,
            places,
        };
        let (way, _) = cabinet.resolve(tally, Form::List, ask, Some(odd));
        let event = Event::Bytes {
            capacity,
            total,
            hit: way == Way::Hit,
        };
        tally.seen.slots.event(event);
    }
}

/// Caches of some capacities over areas of 65,535 to 65,537 bytes, and the largest, over a table that is cut off.
pub fn run(tally: &mut Tally, random: &mut Random) {
    let line = (b">".to_vec(), 7);
    let table = Pooled::new(tally, &[line.clone(), line]).table;
    for capacity in CAPACITIES.into_iter().chain([NO_TABLE]) {
        for total in TOTALS {
            for rest in [Rest::Stamps, Rest::Kept, Rest::Area, Rest::Out] {
                let slots = exact_slots(random, capacity);
                let mut side = Side::standing(&table, cache(capacity, slots));
                if capacity == NO_TABLE {
                    side.area.clear();
                }
                exact(tally, side, total, rest);
            }
        }
    }
    let part = "resolves on 65,535 to 65,537 bytes, through caches of up to 910 slots";
    tally.report(Family::Calls, part);
}

/// A cabinet of one cache whose areas, with an output of so many places, take so many bytes together.
fn cabinet(random: &mut Random, pool: &Pool, total: usize, odd: Odd) -> (Cabinet, usize) {
    let table = &pool.tables[random.below(pool.tables.len())].table;
    let most = if random.once_in(3) { 800 } else { 40 };
    let slots = 1 + random.below(most);
    let capacity = slots + random.below(20) / 19;
    let mut side = Side::standing(table, cache(capacity, any_slots(random, slots)));
    let odd_bytes = odd.stamps + odd.kept + odd.area + odd.out;
    let left = total.saturating_sub(bytes(&side, 0) + odd_bytes) / 4;
    let places = random.below(left + 1);
    side.area.extend(fresh_words(left - places));
    side.snapshot.nodes += random.below(20) / 19;
    side.snapshot.generation = random.below(2) as u64;
    (Cabinet::new(side, None), places)
}

/// One turn: areas of 65,530 to 65,542 bytes, subjects of any kind.
pub fn turn(tally: &mut Tally, random: &mut Random) {
    let pool = Pool::small(tally, random);
    for _ in 0..6 {
        let total = MOST_BYTES - 6 + random.below(13);
        let mut odd = Odd::any(random);
        let odd_sum = odd.stamps + odd.kept + odd.area;
        odd.out = (total + 16 - odd_sum) % 4;
        let (mut cabinet, places) = cabinet(random, &pool, total, odd);
        for _ in 0..3 {
            let ask = Ask {
                on: 0,
                subject: pool.subject(random),
                places,
            };
            cabinet.resolve(tally, Form::List, ask, Some(odd));
        }
    }
}
