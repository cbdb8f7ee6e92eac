//! A cache made by hand on a table of its own.
use crate::cabinet::{Ask, Cabinet, Cache, Form, Side};
use crate::calls::exact_slots;
use crate::copies::Odd;
use crate::pools::Pooled;
use crate::sights::{Key, Mark, Sight};
use crate::states::counter;
use crate::tally::Tally;
use compare::area::Lent;
use compare::model_cache::{Head, Slots, Way};
use compare::model_mark::mark;
use compare::random::Random;
use router::limits::{KEY_BYTES, SLOT_TARGETS};
use router::raw::CacheState;

/// How many slots the router looks at together for a mark.
pub const RUN: usize = 32;

/// Capacities around one run and two, and the largest.
pub const CAPACITIES: [usize; 10] = [1, 2, 31, 32, 33, 63, 64, 65, 1023, 1024];

/// The most targets that a subject has in the table.
pub const MOST_LISTED: usize = SLOT_TARGETS + 2;

/// Caches of up to so many slots are small.
const SMALL: usize = 65;

/// Those of some numbers that are not above the most, in order, each once.
fn up_to(most: usize, mut numbers: Vec<usize>) -> Vec<usize> {
    numbers.retain(|&number| number <= most);
    numbers.sort();
    numbers.dedup();
    numbers
}

/// How many slots of a cache may be in use: around one run and two, none, and all.
pub fn counts(capacity: usize) -> Vec<usize> {
    let counts = [0, 1, 31, 32, 33, 63, 64, 65, capacity - 1, capacity];
    up_to(capacity, counts.into())
}

/// The first slot in use, the last, and the first that is not.
pub fn ends(capacity: usize, used: usize) -> Vec<usize> {
    up_to(capacity - 1, vec![0, used.saturating_sub(1), used])
}

/// All slots of a small cache; of a large one those at the ends of some runs, and the last two.
pub fn places(capacity: usize) -> Vec<usize> {
    if capacity <= SMALL {
        return (0..capacity).collect();
    }
    let ends = [0, 1, 30, 31, 32, 33, 62, 63, 64, 991, 992, 993];
    let last = capacity - 1;
    up_to(last, [&ends[..], &[last - 1, last]].concat())
}

/// Places behind the last slot, up to the end of its run and one more. The bytes of such a slot are those of the next list, and of keys.
pub fn behind(capacity: usize) -> Vec<usize> {
    let end = capacity.next_multiple_of(RUN);
    up_to(end, vec![capacity, capacity + 1, end - 1, end])
}

/// A standing table, in which the subject `list.7` has seven targets.
pub struct Ground {
    table: Lent,
}

impl Ground {
    pub fn new(tally: &mut Tally) -> Ground {
        let line = |count: u32| (format!("list.{count}").into_bytes(), count);
        let lines = (0..=MOST_LISTED as u32).flat_map(|count| vec![line(count); count as usize]);
        let table = Pooled::new(tally, &lines.collect::<Vec<_>>()).table;
        Ground { table }
    }

    pub fn cabinet(&self, cache: Cache, note: &str) -> Cabinet {
        Cabinet::new(Side::standing(&self.table, cache), None).noted(note)
    }
}

/// A resolve of a subject with places enough, and through a small cache now and then on bytes too. What it came to.
pub fn ask(tally: &mut Tally, random: &mut Random, cabinet: &mut Cabinet, subject: &[u8]) -> Way {
    let ask = Ask {
        on: 0,
        subject,
        places: MOST_LISTED,
    };
    let copied = cabinet.capacity(0) <= SMALL && random.once_in(4);
    let odd = copied.then(|| Odd::any(random));
    cabinet.resolve(tally, Form::List, ask, odd).0
}

/// A cache over areas of so many slots that keeps other subjects in all its own, though so many are in use.
pub fn filled(random: &mut Random, room: usize, capacity: usize, used: usize) -> Cache {
    let mut slots = exact_slots(random, room);
    for slot in 0..capacity {
        let key = format!("other.{slot}").into_bytes();
        let head = Head::of(&key, random.below(SLOT_TARGETS + 1));
        slots.put(capacity, slot, head, &key);
    }
    let state = CacheState {
        capacity,
        used,
        generation: 0,
        tick: counter(random),
        walks: counter(random),
    };
    Cache { state, slots }
}

/// A number that is not 0, as the difference of two bytes.
fn off(random: &mut Random) -> u8 {
    1 + random.below(255) as u8
}

/// A mark that is the same as this one, or other in the bytes named.
fn mark_like(random: &mut Random, due: Mark, own: u16) -> u16 {
    let [low, high] = [(); 2].map(|()| off(random));
    let off = match due {
        Mark::Same => [0, 0],
        Mark::OtherLow => [low, 0],
        Mark::OtherHigh => [0, high],
        Mark::OtherBoth => [low, high],
    };
    own ^ u16::from_le_bytes(off)
}

/// The same key, another of its length, or one with a byte more or less.
fn key_like(random: &mut Random, due: Key, own: &[u8]) -> Vec<u8> {
    let mut key = own.to_vec();
    match due {
        Key::Same => (),
        Key::SameLength => {
            let place = random.below(key.len());
            key[place] ^= off(random);
        }
        Key::OtherLength if key.len() == KEY_BYTES || key.len() > 1 && random.once_in(2) => {
            key.pop();
        }
        Key::OtherLength => key.push(b'x'),
    }
    key
}

/// A slot is made to look so to a subject.
pub fn show(
    random: &mut Random,
    slots: &mut Slots,
    capacity: usize,
    slot: usize,
    sight: Sight,
    subject: &[u8],
) {
    let key = key_like(random, sight.key, subject);
    let head = Head {
        length: key.len(),
        targets: random.below(SLOT_TARGETS + 1),
        mark: mark_like(random, sight.mark, mark(subject)),
    };
    slots.put(capacity, slot, head, &key);
}
