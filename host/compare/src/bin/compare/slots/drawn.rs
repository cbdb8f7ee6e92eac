//! Caches of any capacity, their slots filled from few subjects in any way, and calls on them.
use super::hand::{Ground, CAPACITIES};
use super::lengths::{subject, SCRIPTS};
use crate::cabinet::{Ask, Cabinet, Cache, Form};
use crate::calls::any_slots;
use crate::copies::Odd;
use crate::states::{counter, fill};
use crate::tally::Tally;
use compare::one_mark;
use compare::random::Random;
use router::raw::CacheState;
use std::sync::LazyLock;

/// Subjects of one mark and one length.
static ALIKE: LazyLock<Vec<String>> = LazyLock::new(one_mark::of_one_length);

/// Lengths at the ends of words, and of a key.
const LENGTHS: [usize; 10] = [1, 7, 8, 9, 15, 16, 17, 255, 256, 257];

/// Once in so many slots of a cache, a slot says any length or number of targets.
const BAD_CACHES: usize = 10;

/// A subject of one mark with others, one with a list of some targets, one that goes on from another, or one of any length.
fn any_subject(random: &mut Random, others: &[Vec<u8>]) -> Vec<u8> {
    match random.below(6) {
        0..3 => ALIKE[random.below(ALIKE.len())].clone().into_bytes(),
        3 => format!("list.{}", random.below(19)).into_bytes(),
        4 if !others.is_empty() => {
            let other = &others[random.below(others.len())];
            [&other[..], b"x"].concat()
        }
        _ => {
            let script = SCRIPTS[random.below(SCRIPTS.len())];
            let length = LENGTHS[random.below(LENGTHS.len())];
            subject(random, length, script)
        }
    }
}

fn any_capacity(random: &mut Random) -> usize {
    match random.below(12) {
        0 => CAPACITIES[random.below(CAPACITIES.len())],
        1 => 1 + random.below(1024),
        _ => 1 + random.below(100),
    }
}

/// A cache whose slots keep some of the subjects, in use or not.
fn any_cache(random: &mut Random, subjects: &[Vec<u8>]) -> Cache {
    let capacity = any_capacity(random);
    let mut slots = any_slots(random, capacity);
    for slot in 0..capacity {
        let subject = &subjects[random.below(subjects.len())];
        let turns = BAD_CACHES * capacity;
        fill(random, &mut slots, capacity, slot, subject, turns);
    }
    let used = match random.below(3) {
        0 => capacity,
        1 => capacity - 1,
        _ => random.below(capacity + 2),
    };
    let state = CacheState {
        capacity,
        used,
        generation: random.below(8) as u64 / 7,
        tick: counter(random),
        walks: counter(random),
    };
    Cache { state, slots }
}

/// A resolve of one of the subjects.
fn call(tally: &mut Tally, random: &mut Random, cabinet: &mut Cabinet, subject: &[u8]) {
    let places = if random.once_in(8) {
        random.below(18)
    } else {
        18
    };
    let ask = Ask {
        on: 0,
        subject,
        places,
    };
    if random.once_in(3) {
        cabinet.resolve(tally, Form::Verdict, ask, None);
    } else {
        let odd = random.once_in(3).then(|| Odd::any(random));
        cabinet.resolve(tally, Form::List, ask, odd);
    }
}

/// One turn: some caches, and some calls on each.
pub fn turn(tally: &mut Tally, random: &mut Random) {
    let ground = Ground::new(tally);
    for _ in 0..10 {
        let count = 1 + random.below(40);
        let mut subjects = Vec::new();
        for _ in 0..count {
            subjects.push(any_subject(random, &subjects));
        }
        let cache = any_cache(random, &subjects);
        let mut cabinet = ground.cabinet(cache, "");
        for _ in 0..1 + random.below(10) {
            let subject = &subjects[random.below(count)];
            call(tally, random, &mut cabinet, subject);
        }
        if random.once_in(4) {
            cabinet.clear(tally, 0);
        }
        cabinet.close(tally);
    }
}
