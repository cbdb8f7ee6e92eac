//! One slot that has the subject's mark, its bytes, both or neither: any slot of a small cache, slots at the ends of runs in a large one, in use or not, and places
//! behind the last slot.
use super::hand::{ask, behind, counts, filled, places, show, Ground, CAPACITIES, RUN};
use super::met::Event;
use crate::cabinet::Cache;
use crate::sights::Sight;
use crate::tally::{Family, Tally};
use compare::model_cache::Way;
use compare::random::Random;

/// It is short enough for its length to be a number of targets too, where the two are in one place.
pub const SUBJECT: &[u8] = b"yard.east.pt.17";

/// A slot that looks to the subject in each of the ways, one after the other. The subject is resolved twice.
fn each_sight(tally: &mut Tally, random: &mut Random, ground: &Ground, cache: &Cache, slot: usize) {
    let (capacity, used) = (cache.state.capacity, cache.state.used);
    for sight in Sight::all() {
        let mut cache = cache.clone();
        show(random, &mut cache.slots, capacity, slot, sight, SUBJECT);
        let sight = Sight::new(&cache.slots, capacity, slot, SUBJECT);
        let note = format!("  slot {slot} looks so to the subject: {sight:?}\n");
        let mut cabinet = ground.cabinet(cache, &note);
        let way = ask(tally, random, &mut cabinet, SUBJECT);
        let event = Event::Place {
            capacity,
            used,
            slot,
            sight,
            hit: way == Way::Hit,
        };
        tally.seen.slots.event(event);
        ask(tally, random, &mut cabinet, SUBJECT);
    }
}

pub fn run(tally: &mut Tally, random: &mut Random, ground: &Ground) {
    for capacity in CAPACITIES {
        for used in counts(capacity) {
            let cache = filled(random, capacity, capacity, used);
            for slot in places(capacity) {
                each_sight(tally, random, ground, &cache, slot);
            }
            let cache = filled(random, capacity + RUN + 1, capacity, used);
            for slot in behind(capacity) {
                each_sight(tally, random, ground, &cache, slot);
            }
        }
    }
    let part = "marks and keys in one slot of caches of 1 to 1,024, in use or not, and behind them";
    tally.report(Family::Calls, part);
}
