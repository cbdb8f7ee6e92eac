//! Lists of 0 to 18 targets, through outputs that are too short for them, long enough, or longer.
use super::hand::{filled, Ground, MOST_LISTED};
use super::met::Event;
use crate::cabinet::{Ask, Form};
use crate::tally::{Family, Tally};
use compare::model_cache::{Head, Way};
use compare::random::Random;
use router::limits::SLOT_TARGETS;

/// The capacities of the caches, of which the last slot is the one.
const CAPACITIES: [usize; 3] = [1, 2, 33];

/// One list, found by a walk and then kept, or kept in a slot made by hand.
fn each_output(tally: &mut Tally, random: &mut Random, ground: &Ground, targets: usize) {
    let subject = format!("list.{targets}").into_bytes();
    for capacity in CAPACITIES {
        let slot = capacity - 1;
        for places in [targets.saturating_sub(1), targets, targets + 1] {
            for by_hand in [false, true] {
                let used = if by_hand { capacity } else { slot };
                let mut cache = filled(random, capacity, capacity, used);
                let head = Head::of(&subject, targets.min(SLOT_TARGETS));
                cache.slots.put(capacity, slot, head, &subject);
                let mut cabinet = ground.cabinet(cache, "");
                for places in [places, MOST_LISTED, places] {
                    let ask = Ask {
                        on: 0,
                        subject: &subject,
                        places,
                    };
                    let (way, _) = cabinet.resolve(tally, Form::List, ask, None);
                    let event = Event::List {
                        targets,
                        places,
                        hit: way == Way::Hit,
                        refused: matches!(way, Way::Refused(_)),
                    };
                    tally.seen.slots.event(event);
                    cabinet.resolve(tally, Form::Verdict, ask, None);
                }
            }
        }
    }
}

pub fn run(tally: &mut Tally, random: &mut Random, ground: &Ground) {
    for targets in 0..=MOST_LISTED {
        each_output(tally, random, ground, targets);
    }
    let part = "lists of 0 to 18 targets, kept or not, with outputs of about so many places";
    tally.report(Family::Calls, part);
}
