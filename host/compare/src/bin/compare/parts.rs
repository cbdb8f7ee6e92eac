//! The random parts. Each is made of turns, and each turn has a seed of its own, by which it can be made again.
use crate::tally::{Family, Tally};
use crate::{
    byte_limit, calls, crossing, hostile, kinds, limits, load, moves, slots, states, texts,
};
use compare::random::Random;
use std::time::{Duration, Instant};

pub struct Part {
    name: &'static str,
    about: &'static str,
    family: Family,
    /// The turns that it makes in any case.
    turns: u64,
    /// How many milliseconds it goes on, where seconds are asked for, before the next part's turn.
    share: u64,
    turn: fn(&mut Tally, &mut Random),
}

/// How many there are.
pub const COUNT: usize = 14;

static PARTS: [Part; COUNT] = [
    Part {
        name: "texts",
        about: "random and damaged texts",
        family: Family::Texts,
        turns: 1_000_000,
        share: 400,
        turn: texts::turn,
    },
    Part {
        name: "lists",
        about: "random lists of seven kinds",
        family: Family::Tables,
        turns: 1_500,
        share: 400,
        turn: kinds::turn,
    },
    Part {
        name: "inserts",
        about: "inserts into a text store that is nearly full",
        family: Family::Tables,
        turns: 200_000,
        share: 50,
        turn: limits::tight_store,
    },
    Part {
        name: "builds",
        about: "builds of damaged lists, into areas that may be short",
        family: Family::Tables,
        turns: 100_000,
        share: 100,
        turn: limits::damaged_list,
    },
    Part {
        name: "changed",
        about: "built tables with words and counts changed",
        family: Family::Tables,
        turns: 600,
        share: 100,
        turn: hostile::changed_turn,
    },
    Part {
        name: "drawn",
        about: "tables with drawn words",
        family: Family::Tables,
        turns: 100_000,
        share: 100,
        turn: hostile::drawn_turn,
    },
    Part {
        name: "calls",
        about: "calls in any order on one to three snapshots and small caches",
        family: Family::Calls,
        turns: 12_000,
        share: 500,
        turn: calls::turn,
    },
    Part {
        name: "wide",
        about: "calls in any order on one or two snapshots and caches of up to 1,024 slots",
        family: Family::Calls,
        turns: 40,
        share: 250,
        turn: calls::wide_turn,
    },
    Part {
        name: "states",
        about: "calls on states and areas made by hand",
        family: Family::Calls,
        turns: 6_000,
        share: 250,
        turn: states::turn,
    },
    Part {
        name: "bytes",
        about: "resolves on bytes, of areas around 64 KiB",
        family: Family::Calls,
        turns: 600,
        share: 100,
        turn: byte_limit::turn,
    },
    Part {
        name: "crossing",
        about: "crossings of patterns near one subject, of about 4,096 bytes, or damaged",
        family: Family::Crossings,
        turns: 30_000,
        share: 200,
        turn: crossing::turn,
    },
    Part {
        name: "load",
        about: "made patterns and subjects from any start, and lists of them",
        family: Family::Made,
        turns: 30_000,
        share: 200,
        turn: load::turn,
    },
    Part {
        name: "move",
        about: "whole moves on states and areas made by hand, and among all other calls",
        family: Family::Moves,
        turns: 2_500,
        share: 250,
        turn: moves::turn,
    },
    Part {
        name: "slots",
        about:
            "resolves on caches made by hand, of any capacity, their slots filled from few subjects",
        family: Family::Calls,
        turns: 1_500,
        share: 250,
        turn: slots::turn,
    },
];

pub fn named(name: &str) -> Option<&'static Part> {
    PARTS.iter().find(|part| part.name == name)
}

/// What a part did.
#[derive(Clone, Copy, Default)]
struct Done {
    turns: u64,
    calls: u64,
    comparisons: u64,
}

impl Done {
    fn report(&self, about: &str, again: &str) {
        let Done {
            turns,
            calls,
            comparisons,
        } = self;
        let calls = match calls {
            0 => String::new(),
            _ => format!(", {calls} calls"),
        };
        println!("{comparisons:>12} comparisons: {about}, {turns} turns{calls}{again}");
    }
}

impl Part {
    /// The turn of a seed.
    pub fn turn(&self, tally: &mut Tally, seed: u64) {
        tally.begin(self.name, seed);
        (self.turn)(tally, &mut Random::new(seed));
        tally.end();
    }

    /// Turns for as long as it is told, added to what the part did.
    fn run(
        &self,
        tally: &mut Tally,
        random: &mut Random,
        done: &mut Done,
        goes_on: impl Fn(u64) -> bool,
    ) {
        let calls = tally.seen.calls();
        let mut turns = 0;
        while goes_on(turns) {
            self.turn(tally, random.seed());
            turns += 1;
        }
        done.turns += turns;
        done.calls += tally.seen.calls() - calls;
        done.comparisons += tally.count(self.family);
    }
}

/// A part, by its place among them, with its fixed number of turns.
pub fn fixed(part: usize, tally: &mut Tally, random: &mut Random) {
    let part = &PARTS[part];
    let mut done = Done::default();
    part.run(tally, random, &mut done, |turns| turns < part.turns);
    done.report(part.about, "");
}

/// Every part a while, again and again until the time is over.
pub fn until(tally: &mut Tally, random: &mut Random, end: Instant) {
    let mut done = [Done::default(); COUNT];
    while Instant::now() < end {
        for (part, done) in PARTS.iter().zip(&mut done) {
            let pause = end.min(Instant::now() + Duration::from_millis(part.share));
            part.run(tally, random, done, |_| Instant::now() < pause);
        }
    }
    for (part, done) in PARTS.iter().zip(done) {
        done.report(part.about, ", in the seconds asked for");
    }
}
