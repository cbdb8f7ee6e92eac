//! Calls in any order on one snapshot and some caches, or on several snapshots that share them, with the original beside them.
//! Ours is given any generation with a first table; the original's is built as 0.
use crate::cabinet::{Ask, Cabinet, Cache, Form, Side, Standing};
use crate::copies::Odd;
use crate::moves;
use crate::pools::{Pool, Pooled};
use crate::seen;
use crate::tables::fresh_words;
use crate::tally::{Family, Tally};
use crate::theirs::Theirs;
use compare::area::Words;
use compare::model_cache::{self, Slots, Way};
use compare::model_snapshot;
use compare::one_mark;
use compare::random::Random;
use oracle::sublist::SublistSnapshot;
use router::limits::{kept_words, key_bytes, stamp_numbers};
use router::raw::{self, CacheState};
use std::mem::swap;

/// A cabinet, the pool that its calls draw from, and the number there of the table that stands at hand, and of those that stand in the other snapshots.
pub struct World {
    pool: Pool,
    cabinet: Cabinet,
    standing: usize,
    others: Vec<usize>,
    /// Places enough for any list.
    enough: usize,
    /// Once in how many calls a table is stored. Caches are cleared a third as often.
    store_once_in: usize,
}

/// A generation lent with a first table: 0, one that some store will stamp, or any.
fn first_generation(random: &mut Random) -> u64 {
    match random.below(8) {
        0..3 => 0,
        3 => 1,
        4..6 => 1 + random.below(8) as u64,
        6 => u64::MAX - random.below(2) as u64,
        _ => random.draw(),
    }
}

/// Areas of so many slots and some stamps, bytes and targets more, with anything in them.
fn slots_and(random: &mut Random, slots: usize, more: [usize; 3]) -> Slots {
    let stamps = stamp_numbers(slots) + more[0];
    let keys = key_bytes(slots) + more[1];
    Slots {
        stamps: (0..stamps).map(|_| random.draw()).collect(),
        keys: (0..keys).map(|place| (place as u8) ^ 0x5a).collect(),
        kept: fresh_words(kept_words(slots) + more[2]),
    }
}

/// Areas of so many slots.
pub fn exact_slots(random: &mut Random, slots: usize) -> Slots {
    slots_and(random, slots, [0; 3])
}

/// Areas of so many slots, and mostly of some places more.
pub fn any_slots(random: &mut Random, slots: usize) -> Slots {
    let more = [4, 3, 3].map(|end| random.below(end));
    slots_and(random, slots, more)
}

/// A fresh cache, compared as it is made.
fn fresh_cache(tally: &mut Tally, random: &mut Random, capacity: usize) -> Cache {
    let slots = any_slots(random, capacity.max(1));
    let made = raw::cache_new(capacity, &slots.stamps, &slots.keys, &slots.kept);
    let due = model_cache::with_capacity(capacity, &slots);
    tally.compare_on("cache_new", || format!("  {capacity}\n"), made, due);
    tally.called("cache_new", due.number);
    let state = CacheState {
        capacity: due.capacity as usize,
        ..CacheState::default()
    };
    Cache { state, slots }
}

/// A fresh snapshot with a first table, or by `empty` if that is the same, compared as it is made.
fn fresh_snapshot(
    tally: &mut Tally,
    first: Words,
    generation: u64,
    empty: bool,
    mut area: Vec<u32>,
) -> Standing {
    let mut area_due = area.clone();
    let (name, made, due) = if empty {
        let due = model_snapshot::make_empty(&mut area_due);
        ("snapshot_empty", raw::snapshot_empty(&mut area), due)
    } else {
        let made = raw::snapshot_new(
            first.nodes,
            first.targets,
            generation,
            first.node_words,
            first.target_words,
            &mut area,
        );
        let due = model_snapshot::make(first, &mut area_due);
        ("snapshot_new", made, due)
    };
    let inputs = || format!("  {first:?}\n");
    tally.compare_on(name, inputs, (made, &area), (due, &area_due));
    tally.called(name, due.number);
    Standing {
        snapshot: model_snapshot::state_made(made),
        area,
    }
}

/// An area that holds the first table, and mostly the others too.
fn any_area(random: &mut Random, pool: &Pool, first: &Pooled) -> Vec<u32> {
    let any = &pool.tables[random.below(pool.tables.len())];
    let longest = pool.tables.iter().map(Pooled::length).max();
    let length = if random.once_in(3) {
        any.length()
    } else {
        longest.unwrap_or(0)
    };
    fresh_words(length.max(first.length()) + random.below(3))
}

/// A fresh snapshot of a table of the pool, on all sides; and the table's number.
fn fresh(
    tally: &mut Tally,
    random: &mut Random,
    pool: &Pool,
) -> (usize, Standing, SublistSnapshot<u32>) {
    let standing = random.below(pool.tables.len());
    let first = &pool.tables[standing];
    let empty = first.table.targets == 0 && random.once_in(2);
    let area = any_area(random, pool, first);
    let generation = first_generation(random);
    let ours = fresh_snapshot(tally, first.table.words(), generation, empty, area);
    let theirs = if empty {
        SublistSnapshot::empty()
    } else {
        SublistSnapshot::new(first.original(0))
    };
    (standing, ours, theirs)
}

impl World {
    /// Fresh snapshots, one and some others, and fresh caches on all sides.
    pub fn new(
        tally: &mut Tally,
        random: &mut Random,
        pool: Pool,
        others: usize,
        capacities: &[usize],
    ) -> World {
        let (standing, ours, theirs) = fresh(tally, random, &pool);
        let mut side = Side {
            snapshot: ours.snapshot,
            area: ours.area,
            ..Side::default()
        };
        let (mut other_tables, mut other_theirs) = (Vec::new(), Vec::new());
        for _ in 0..others {
            let (table, ours, theirs) = fresh(tally, random, &pool);
            other_tables.push(table);
            side.others.push(ours);
            other_theirs.push(theirs);
        }
        for &capacity in capacities {
            side.caches.push(fresh_cache(tally, random, capacity));
        }
        let theirs = Theirs::new(theirs, other_theirs, capacities);
        let targets = |pooled: &Pooled| pooled.table.targets;
        let enough = pool.tables.iter().map(targets).max().unwrap_or(0);
        World {
            cabinet: Cabinet::new(side, Some(theirs)),
            pool,
            standing,
            others: other_tables,
            enough,
            store_once_in: 16,
        }
    }

    /// Another snapshot is taken in hand, if there is one.
    fn turn(&mut self, random: &mut Random) {
        if self.others.is_empty() {
            return;
        }
        let other = random.below(self.others.len());
        swap(&mut self.standing, &mut self.others[other]);
        self.cabinet.turn(other);
    }

    /// Places for an output: enough, or few.
    fn places(&self, random: &mut Random) -> usize {
        if random.once_in(8) {
            random.below(4)
        } else {
            self.enough + random.below(2)
        }
    }

    /// A store of some table, sometimes lent with counts beyond its areas.
    fn store(&mut self, tally: &mut Tally, random: &mut Random) {
        let number = random.below(self.pool.tables.len());
        let pooled = &self.pool.tables[number];
        let mut words = pooled.table.words();
        match random.below(40) {
            0 => words.nodes = 0,
            1 => words.nodes += 1 + random.below(2),
            2 => words.targets += 1,
            3 => words.nodes = usize::MAX / 16 + random.below(3),
            _ => (),
        }
        let generation = random.draw();
        let original = || pooled.original(generation);
        if self.cabinet.store(tally, words, generation, original) {
            self.standing = number;
        }
    }

    /// A match or a verdict without a cache, its peak also by the tree of the standing table.
    fn ask(&mut self, tally: &mut Tally, random: &mut Random) {
        let subject = self.pool.subject(random);
        let places = self.places(random);
        let tree = &self.pool.tables[self.standing].tree;
        let told = if random.once_in(2) {
            let told = self.cabinet.match_into(tally, subject, places);
            told.map(|(peak, list)| (peak, Some(list)))
        } else {
            let told = self.cabinet.home(tally, subject, places);
            told.map(|peak| (peak, None))
        };
        let Some((peak, list)) = told else {
            return;
        };
        let mut list_due = Vec::new();
        let peak_due = tree.walk(subject, &mut list_due) as u64;
        tally.compare_list("the peak by the tree", &[], subject, peak, peak_due);
        if let Some(list) = list {
            tally.compare_list("the list by the tree", &[], subject, list, list_due);
        }
    }

    fn resolve(&mut self, tally: &mut Tally, random: &mut Random) {
        let ask = Ask {
            on: random.below(self.cabinet.caches()),
            subject: self.pool.subject(random),
            places: self.places(random),
        };
        if random.once_in(3) {
            self.cabinet.resolve(tally, Form::Verdict, ask, None);
            return;
        }
        let odd = random.once_in(16).then(|| Odd::any(random));
        let (way, list) = self.cabinet.resolve(tally, Form::List, ask, odd);
        if way == Way::Hit && self.cabinet.may_be_stale() {
            let mut standing = Vec::new();
            let tree = &self.pool.tables[self.standing].tree;
            tree.walk(ask.subject, &mut standing);
            if list != Some(standing) {
                tally.seen.way(seen::STALE);
                if self.cabinet.in_full(ask.on) {
                    tally.seen.way(seen::STALE_THERE);
                }
            }
        }
    }

    fn call(&mut self, tally: &mut Tally, random: &mut Random) {
        if random.once_in(4) {
            self.turn(random);
        }
        if random.once_in(self.store_once_in) {
            self.store(tally, random);
        } else if random.once_in(3 * self.store_once_in) {
            let on = random.below(self.cabinet.caches());
            self.cabinet.clear(tally, on);
        } else if random.once_in(5) {
            self.ask(tally, random);
        } else {
            self.resolve(tally, random);
        }
    }

    fn run(mut self, tally: &mut Tally, random: &mut Random, calls: usize) {
        for _ in 0..calls {
            self.call(tally, random);
        }
        self.cabinet.close(tally);
    }

    /// A whole move by the standing table.
    fn whole_move(&mut self, tally: &mut Tally, random: &mut Random) {
        let (tree, texts) = (&self.pool.tables[self.standing].tree, &self.pool.subjects);
        let routed = moves::routed_by(tree, texts);
        let (subjects, places) = moves::whole_move(random, texts, &routed);
        self.cabinet.whole_move(tally, subjects, places);
    }

    /// Whole moves among all other calls, stores more often than else.
    pub fn moves(mut self, tally: &mut Tally, random: &mut Random, calls: usize) {
        self.store_once_in = 4;
        for _ in 0..calls {
            self.call(tally, random);
            self.whole_move(tally, random);
        }
        self.cabinet.close(tally);
    }
}

/// One turn: small lists, small caches, some hundred calls.
pub fn turn(tally: &mut Tally, random: &mut Random) {
    let pool = if random.once_in(8) {
        Pool::yard(tally, random, 60, 40)
    } else {
        Pool::small(tally, random)
    };
    const CAPACITIES: [usize; 7] = [0, 1, 2, 3, 5, 16, 24];
    let capacities: Vec<usize> = (0..1 + random.below(4))
        .map(|_| CAPACITIES[random.below(CAPACITIES.len())])
        .collect();
    let others = random.below(6).saturating_sub(3);
    let world = World::new(tally, random, pool, others, &capacities);
    let calls = 100 + random.below(300);
    world.run(tally, random, calls);
}

/// One turn: lists of up to 1,600 lines, a cache of up to 1,024 slots, and more subjects, each of them once and then in any order.
pub fn wide_turn(tally: &mut Tally, random: &mut Random) {
    let capacity = [100, 400, 1024, 1024][random.below(4)];
    let lines = if random.once_in(2) { 300 } else { 1600 };
    let pool = Pool::yard(tally, random, lines, 3 * capacity / 2);
    wide(tally, random, pool, capacity);
}

/// Each subject of a pool once through a cache of so many slots, and then calls in any order on it and on a small one.
fn wide(tally: &mut Tally, random: &mut Random, pool: Pool, capacity: usize) {
    let small = 1 + random.below(40);
    let others = usize::from(random.once_in(4));
    let mut world = World::new(tally, random, pool, others, &[capacity, small]);
    world.store_once_in = capacity;
    for subject in &world.pool.subjects {
        let ask = Ask {
            on: 0,
            subject,
            places: world.enough,
        };
        world.cabinet.resolve(tally, Form::List, ask, None);
    }
    world.run(tally, random, 2 * capacity);
}

/// So many numbered subjects are tried for one mark: about one in 65,536 has it.
const NUMBERED: usize = 2_000_000;

/// The same with subjects of one mark: all of one length, and of several.
pub fn one_mark(tally: &mut Tally, random: &mut Random) {
    let numbered = |number| format!("yard.{number}{}", ".x".repeat(number % 12));
    let several = one_mark::like_the_first((0..NUMBERED).map(numbered));
    for capacity in [32, 33, 100, 1024] {
        for subjects in [one_mark::of_one_length(), several.clone()] {
            let mut pool = Pool::yard(tally, random, 300, 0);
            pool.subjects = subjects.into_iter().map(String::into_bytes).collect();
            wide(tally, random, pool, capacity);
        }
    }
    let part = "calls on caches of 32 to 1,024 slots with subjects of one mark";
    tally.report(Family::Calls, part);
}
