//! States, slots and areas made by hand, with any numbers in them: each call gives what the definitions give, word for word.
//! The original is not asked, for its state cannot be lent: wraps of tick, walks and counter are so compared with the definitions alone.
use crate::cabinet::{Ask, Cabinet, Cache, Form, Side};
use crate::calls::any_slots;
use crate::copies::Odd;
use crate::hostile;
use crate::pools::Pool;
use crate::tables::fresh_words;
use crate::tally::Tally;
use compare::area::Lent;
use compare::model_cache::{self, Head, Slots};
use compare::model_snapshot;
use compare::original_calls;
use compare::random::Random;
use oracle::binding;
use router::limits::{KEY_BYTES, SLOT_TARGETS};
use router::raw::{self, CacheState, SnapshotState};

/// The longest key that a slot can say it has, and one more than the most targets.
const MOST_LENGTH: usize = 2048;
const MOST_TARGETS: usize = 32;

/// A number that may be any: mostly near the one named, often at the ends of the range.
fn any_number(random: &mut Random, near: u64) -> u64 {
    match random.below(8) {
        0 => u64::MAX - random.below(3) as u64,
        1 => random.below(3) as u64,
        2 => random.draw(),
        3 => (1 << 60) + random.below(3) as u64,
        4 => near.saturating_sub(1),
        _ => near.wrapping_add(random.below(3) as u64),
    }
}

/// The number named, or once in `turns` any.
fn mostly(random: &mut Random, number: u64, turns: usize) -> u64 {
    if random.once_in(turns) {
        any_number(random, number)
    } else {
        number
    }
}

/// A count of events, so near to its end that it wraps within some calls, or any.
pub fn counter(random: &mut Random) -> u64 {
    match random.below(3) {
        0 => u64::MAX - random.below(4) as u64,
        1 => random.below(6) as u64,
        _ => random.draw(),
    }
}

/// Few generations, so that cache and snapshot often have the same.
fn generation(random: &mut Random) -> u64 {
    [0, 1, u64::MAX][random.below(3)]
}

/// The words of a table with some behind them, or some too few.
pub fn area_of(random: &mut Random, table: &Lent) -> Vec<u32> {
    let mut area = [&table.node_words[..], &table.target_words].concat();
    area.extend(fresh_words(random.below(4)));
    if random.once_in(10) {
        area.truncate(random.below(area.len() + 1));
    }
    area
}

pub fn any_snapshot(random: &mut Random, table: &Lent) -> SnapshotState {
    SnapshotState {
        nodes: mostly(random, table.nodes as u64, 12) as usize,
        targets: mostly(random, table.targets as u64, 12) as usize,
        generation: generation(random),
        next: counter(random),
    }
}

/// A mark, or once in some times one that is another by its low byte, by its high byte, or by both.
fn mostly_mark(random: &mut Random, mark: u16) -> u16 {
    let off = 1 + random.below(255) as u16;
    match random.below(20) {
        0 => mark ^ off,
        1 => mark ^ off << 8,
        2 => random.draw() as u16,
        _ => mark,
    }
}

/// A slot that keeps a list of any targets under one of the subjects, with a stamp that others may have. Its mark is another once in some times, and once in
/// `turns` it says any length or number of targets.
pub fn fill(
    random: &mut Random,
    slots: &mut Slots,
    capacity: usize,
    slot: usize,
    subject: &[u8],
    turns: usize,
) {
    let key = &subject[..subject.len().min(KEY_BYTES)];
    let own = Head::of(key, random.below(SLOT_TARGETS + 1));
    let length_less_one = own.length.saturating_sub(1) as u64;
    let head = Head {
        length: 1 + mostly(random, length_less_one, turns) as usize % MOST_LENGTH,
        targets: mostly(random, own.targets as u64, turns) as usize % MOST_TARGETS,
        mark: mostly_mark(random, own.mark),
    };
    slots.put(capacity, slot, head, key);
    let stamp = random.below(4) as u64;
    slots.stamps[slot] = mostly(random, stamp, 3);
}

/// One of the areas is too short, by a little or by all.
fn shorten(random: &mut Random, slots: &mut Slots) {
    let cut = |random: &mut Random, length: usize| match random.below(4) {
        0 => 0,
        _ => length.saturating_sub(1 + random.below(5)),
    };
    match random.below(3) {
        0 => slots.stamps.truncate(cut(random, slots.stamps.len())),
        1 => slots.keys.truncate(cut(random, slots.keys.len())),
        _ => slots.kept.truncate(cut(random, slots.kept.len())),
    }
}

/// A cache of few slots, used and filled in any way.
fn any_cache(random: &mut Random, pool: &Pool) -> Cache {
    let count = 1 + random.below(5);
    let mut slots = any_slots(random, count);
    for slot in 0..count {
        let subject = pool.subject(random);
        fill(random, &mut slots, count, slot, subject, 40);
    }
    if random.once_in(12) {
        shorten(random, &mut slots);
    }
    let used = if random.once_in(2) {
        count
    } else {
        random.below(count + 1)
    };
    let state = CacheState {
        capacity: mostly(random, count as u64, 12) as usize,
        used: mostly(random, used as u64, 12) as usize,
        generation: generation(random),
        tick: counter(random),
        walks: counter(random),
    };
    Cache { state, slots }
}

/// Some calls on a snapshot and a cache made by hand, each on what the last one left.
fn calls(tally: &mut Tally, random: &mut Random, pool: &Pool) {
    let drawn = hostile::drawn(random);
    let built = &pool.tables[random.below(pool.tables.len())].table;
    let table = if random.once_in(3) { &drawn } else { built };
    let side = Side {
        snapshot: any_snapshot(random, table),
        area: area_of(random, table),
        others: Vec::new(),
        caches: vec![any_cache(random, pool)],
    };
    let mut cabinet = Cabinet::new(side, None);
    for _ in 0..1 + random.below(12) {
        let subject = pool.subject(random);
        let places = if random.once_in(6) {
            random.below(5)
        } else {
            12 + random.below(12)
        };
        let ask = Ask {
            on: 0,
            subject,
            places,
        };
        match random.below(12) {
            0 => store(tally, random, &mut cabinet, pool),
            1 if random.once_in(3) => cabinet.clear(tally, 0),
            1 | 2 => drop(cabinet.match_into(tally, subject, places)),
            3 => drop(cabinet.home(tally, subject, places)),
            4..7 => drop(cabinet.resolve(tally, Form::Verdict, ask, None)),
            _ => {
                let odd = random.once_in(2).then(|| Odd::any(random));
                cabinet.resolve(tally, Form::List, ask, odd);
            }
        }
    }
    cabinet.close(tally);
}

/// A store of a table with counts and areas that may be any.
fn store(tally: &mut Tally, random: &mut Random, cabinet: &mut Cabinet, pool: &Pool) {
    let table = any_table(random, pool);
    let never = || unreachable!("the original is not asked");
    cabinet.store(tally, table.words(), random.draw(), never);
}

/// A table of the pool, its counts and areas changed once in some times.
fn any_table(random: &mut Random, pool: &Pool) -> Lent {
    let mut table = pool.tables[random.below(pool.tables.len())].table.clone();
    table.nodes = mostly(random, table.nodes as u64, 8) as usize;
    table.targets = mostly(random, table.targets as u64, 8) as usize;
    if random.once_in(8) {
        let length = table.node_words.len();
        table.node_words.truncate(random.below(length + 1));
    }
    if random.once_in(8) {
        let length = table.target_words.len();
        table.target_words.truncate(random.below(length + 1));
    }
    table
}

/// A snapshot made from any table, or from none, in an area of any length.
fn made_snapshot(tally: &mut Tally, random: &mut Random, pool: &Pool) {
    let table = any_table(random, pool);
    let needed = table.node_words.len() + table.target_words.len();
    let length = (needed + random.below(4)).saturating_sub(random.below(4));
    let mut area = fresh_words(length);
    let mut area_due = area.clone();
    let generation = counter(random);
    let made = raw::snapshot_new(
        table.nodes,
        table.targets,
        generation,
        &table.node_words,
        &table.target_words,
        &mut area,
    );
    let due = model_snapshot::make(table.words(), &mut area_due);
    let inputs = || format!("  {table:?}, area of {length}\n");
    tally.compare_on("snapshot_new", inputs, (made, area), (due, area_due));
    tally.called("snapshot_new", due.number);

    let mut area = fresh_words(random.below(20));
    let mut area_due = area.clone();
    let made = raw::snapshot_empty(&mut area);
    let due = model_snapshot::make_empty(&mut area_due);
    let inputs = || format!("  area of {}\n", area_due.len());
    tally.compare_on("snapshot_empty", inputs, (made, &area), (due, &area_due));
    tally.called("snapshot_empty", due.number);
}

/// A cache of any capacity over areas of any lengths.
fn made_cache(tally: &mut Tally, random: &mut Random) {
    let count = random.below(4);
    let mut slots = any_slots(random, count);
    if random.once_in(2) {
        shorten(random, &mut slots);
    }
    let capacity = mostly(random, count as u64, 3) as usize;
    compare_made(tally, capacity, &slots);
}

pub fn compare_made(tally: &mut Tally, capacity: usize, slots: &Slots) {
    let made = raw::cache_new(capacity, &slots.stamps, &slots.keys, &slots.kept);
    let due = model_cache::with_capacity(capacity, slots);
    let lengths = [slots.stamps.len(), slots.keys.len(), slots.kept.len()];
    let inputs = || format!("  capacity {capacity} over {lengths:?}\n");
    tally.compare_on("cache_new", inputs, made, due);
    tally.called("cache_new", due.number);
}

/// The verdict on any list, with the original's.
fn verdict(tally: &mut Tally, random: &mut Random) {
    let most = if random.once_in(10) { 3000 } else { 4 };
    let list: Vec<u32> = (0..random.below(most))
        .map(|_| random.draw() as u32)
        .collect();
    let due = original_calls::verdict(binding::single_home(&list));
    let ours = raw::single_home(&list);
    tally.compare_on("single_home", || format!("  {list:?}\n"), ours, due);
    tally.called("single_home", due.number);
}

/// One turn: a pool, and calls on states made by hand that draw from it.
pub fn turn(tally: &mut Tally, random: &mut Random) {
    let pool = Pool::small(tally, random);
    for _ in 0..20 {
        calls(tally, random, &pool);
        made_snapshot(tally, random, &pool);
        made_cache(tally, random);
        verdict(tally, random);
    }
}
