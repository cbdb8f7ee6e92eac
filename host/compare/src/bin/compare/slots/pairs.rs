//! Two slots that have the subject's mark, its bytes, both or neither: the first that has both is the one, and where none has, the subject stands once more.
use super::hand::{ask, filled, show, Ground, RUN};
use super::met::Event;
use super::places::SUBJECT;
use crate::cabinet::Cache;
use crate::sights::Sight;
use crate::tally::{Family, Tally};
use compare::model_cache::Way;
use compare::random::Random;

const CAPACITIES: [usize; 6] = [2, 32, 33, 64, 65, 1024];

/// Two slots in one run or in two.
const PAIRS: [[usize; 2]; 11] = [
    [0, 1],
    [0, 31],
    [30, 31],
    [0, 32],
    [31, 32],
    [32, 33],
    [0, 63],
    [31, 63],
    [62, 63],
    [63, 64],
    [0, 1023],
];

/// The two slots look to the subject in each of the ways. The subject is resolved three times.
fn each_two(
    tally: &mut Tally,
    random: &mut Random,
    ground: &Ground,
    cache: &Cache,
    pair: [usize; 2],
) {
    let (capacity, used) = (cache.state.capacity, cache.state.used);
    for first in Sight::all() {
        for second in Sight::all() {
            let mut cache = cache.clone();
            for (slot, sight) in pair.into_iter().zip([first, second]) {
                show(random, &mut cache.slots, capacity, slot, sight, SUBJECT);
            }
            let sights = pair.map(|slot| Sight::new(&cache.slots, capacity, slot, SUBJECT));
            let note = format!("  slots {pair:?} look so to the subject: {sights:?}\n");
            let mut cabinet = ground.cabinet(cache, &note);
            let way = ask(tally, random, &mut cabinet, SUBJECT);
            let event = Event::Pair {
                sights,
                one_run: pair[0] / RUN == pair[1] / RUN,
                full: used == capacity,
                hit: way == Way::Hit,
            };
            tally.seen.slots.event(event);
            for _ in 0..2 {
                ask(tally, random, &mut cabinet, SUBJECT);
            }
        }
    }
}

pub fn run(tally: &mut Tally, random: &mut Random, ground: &Ground) {
    for capacity in CAPACITIES {
        for used in [capacity - 1, capacity] {
            let cache = filled(random, capacity, capacity, used);
            for pair in PAIRS.into_iter().filter(|pair| pair[1] < used) {
                each_two(tally, random, ground, &cache, pair);
            }
        }
    }
    let part = "marks and keys in any two slots of 11 pairs, the subject resolved three times";
    tally.report(Family::Calls, part);
}
