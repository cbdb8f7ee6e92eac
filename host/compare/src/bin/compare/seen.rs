//! What the inputs must bring up, each at least once: a kind that never came up means that the comparisons miss it.
use crate::load;
use crate::met::Met;
use crate::moves;
use crate::sights;
use crate::slots;
use crate::theirs::Scope;
use compare::made;
use compare::model_cache::{Stage, Way};
use compare::model_crossing::Due;
use compare::model_load::Kind;
use compare::original::MAX_TEXT;
use router::limits::{KEY_BYTES, MAX_CAPACITY};
use std::collections::BTreeMap;

/// The answers that each call on a snapshot or a cache must give. No subject is refused as 4.
const ANSWERS: [(&str, &[u64]); 11] = [
    ("snapshot_new", &[0, 19, 20]),
    ("snapshot_empty", &[0, 20]),
    ("store", &[0, 19, 20]),
    ("snapshot_match", &[0, 1, 2, 3, 5, 6, 7, 8, 9, 19, 21]),
    ("cache_new", &[0, 17]),
    ("cache_clear", &[0]),
    ("resolve", &[0, 1, 2, 3, 5, 6, 7, 8, 9, 17, 18, 19, 21]),
    (
        "resolve_bytes",
        &[0, 1, 2, 3, 5, 6, 7, 8, 9, 17, 18, 19, 21, 99],
    ),
    ("single_home", &[0]),
    ("resolve_single_home", &[0, 1, 2, 3, 5, 6, 7, 8, 9, 19, 21]),
    (
        "resolve_single_home_cached",
        &[0, 1, 2, 3, 5, 6, 7, 8, 9, 17, 18, 19, 21],
    ),
];

/// Crossings that one or the other pattern refuses, and those that neither does.
pub const CROSSING_REFUSED: [&str; 2] = [
    "crossing, refused by the first pattern",
    "crossing, refused by the second pattern",
];
pub const CROSSING: &str = "crossing of accepted patterns";

/// The answers that crossings must give. No pattern is refused as 7.
const CROSSING_ANSWERS: [(&str, &[u64]); 3] = [
    (CROSSING_REFUSED[0], &[1, 2, 3, 4, 5, 6, 8, 9]),
    (CROSSING_REFUSED[1], &[1, 2, 3, 4, 5, 6, 8, 9]),
    (CROSSING, &[0, 21]),
];

/// The answers that each making of a text must give.
const MADE_ANSWERS: [(&str, &[u64]); 2] = [
    (made::name(Kind::Pattern), &[0, 21, 28]),
    (made::name(Kind::Subject), &[0, 21, 28]),
];

/// The answers that whole moves must give. No subject is refused as 4.
const MOVE_ANSWERS: [(&str, &[u64]); 1] =
    [(moves::NAME, &[0, 1, 2, 3, 5, 6, 7, 8, 9, 12, 19, 21, 22])];

/// What else must happen, by name.
pub const HIT: &str = "hits";
pub const STALE: &str = "hits on a list that the standing table does not give";
pub const STALE_THERE: &str = "the same, compared: the original hands back that list too";
pub const KEPT: &str = "misses kept in a new slot";
pub const DROPPED: &str = "misses kept in the slot of the smallest stamp";
pub const DROPPED_OF_1024: &str = "the same in a cache of 1,024 slots";
pub const EQUAL_STAMPS: &str = "the same where slots have equal stamps";
pub const LONG_SUBJECT: &str = "walks not kept, the subject over 256 bytes";
pub const LONG_LIST: &str = "walks not kept, the list over 16 targets";
pub const EMPTIED: &str = "generations adopted by a cache that held lists";
pub const ADOPTED: &str = "generations adopted by an empty cache";
pub const SHORT_HIT: &str = "refusals of a hit, the output too short";
pub const REFUSED_WALK: &str = "refusals in or after a walk";
pub const COUNTS: &str = "refusals on the standing table's counts";
pub const COUNTS_OF_HIT: &str = "the same where the cache keeps the list";
pub const NOT_ADOPTED: &str = "refusals in or after a walk, on another generation than the cache's";
pub const CLEARED: &str = "clears of a cache that held lists";
pub const NO_STREAM: &str = "verdicts NoStream";
pub const ROUTED: &str = "verdicts Routed";
pub const AMBIGUOUS: &str = "verdicts Ambiguous";
pub const TICK_WRAPPED: &str = "ticks that wrapped";
pub const WALKS_WRAPPED: &str = "walk counts that wrapped";
pub const COUNTER_WRAPPED: &str = "generation counters that wrapped";
pub const IN_FULL: &str = "resolves compared with the original in full";
pub const LISTS_ONLY: &str = "resolves compared with the original by list or verdict alone";
pub const NOT_COMPARED: &str =
    "resolves not compared with the original, as two tables had one generation";

const WAYS: [&str; 26] = [
    HIT,
    STALE,
    STALE_THERE,
    KEPT,
    DROPPED,
    DROPPED_OF_1024,
    EQUAL_STAMPS,
    LONG_SUBJECT,
    LONG_LIST,
    EMPTIED,
    ADOPTED,
    SHORT_HIT,
    REFUSED_WALK,
    NOT_ADOPTED,
    COUNTS,
    COUNTS_OF_HIT,
    CLEARED,
    NO_STREAM,
    ROUTED,
    AMBIGUOUS,
    TICK_WRAPPED,
    WALKS_WRAPPED,
    COUNTER_WRAPPED,
    IN_FULL,
    LISTS_ONLY,
    NOT_COMPARED,
];

pub const SHOWN: &str = "crossings with a subject shown";
pub const LONGEST_SHOWN: &str = "the same of 4,096 bytes";
pub const APART: &str = "crossings with none, as no subject of any length matches both";
pub const NO_OUTPUT: &str = "the same with an output of no bytes";
pub const TOO_LONG: &str = "crossings with none, as a shortest subject has over 4,096 bytes";
pub const ONE_TOO_LONG: &str = "the same of 4,097 bytes";
pub const BOTH_REFUSED: &str = "crossings of two refused patterns";
pub const TRIED: &str = "pairs of patterns with all short subjects tried";

const CROSSING_WAYS: [&str; 8] = [
    SHOWN,
    LONGEST_SHOWN,
    APART,
    NO_OUTPUT,
    TOO_LONG,
    ONE_TOO_LONG,
    BOTH_REFUSED,
    TRIED,
];

/// Verdicts by kind, in the order of their numbers.
pub const VERDICTS: [&str; 3] = [NO_STREAM, ROUTED, AMBIGUOUS];

/// The name of what is compared of a resolve.
pub fn scope(scope: Scope) -> &'static str {
    match scope {
        Scope::Full => IN_FULL,
        Scope::ListOrVerdict => LISTS_ONLY,
        Scope::Nothing => NOT_COMPARED,
    }
}

/// A name, if it is so.
fn also(name: &'static str, holds: bool) -> Option<&'static str> {
    holds.then_some(name)
}

/// The names of what a resolve came to.
pub fn ways(way: Way, subject: &[u8], capacity: u64) -> Vec<&'static str> {
    let [first, second, third] = match way {
        Way::Refused(Stage::Subject | Stage::Cache) => [None; 3],
        Way::Refused(Stage::Counts { would_hit }) => {
            [Some(COUNTS), also(COUNTS_OF_HIT, would_hit), None]
        }
        Way::Refused(Stage::Hit) => [Some(SHORT_HIT), None, None],
        Way::Refused(Stage::Walk) => [Some(REFUSED_WALK), None, None],
        Way::Hit => [Some(HIT), None, None],
        Way::Kept => [Some(KEPT), None, None],
        Way::Dropped { equal_stamps } => [
            Some(DROPPED),
            also(EQUAL_STAMPS, equal_stamps),
            also(DROPPED_OF_1024, capacity == MAX_CAPACITY as u64),
        ],
        Way::NotKept if subject.len() > KEY_BYTES => [Some(LONG_SUBJECT), None, None],
        Way::NotKept => [Some(LONG_LIST), None, None],
    };
    [first, second, third].into_iter().flatten().collect()
}

/// The names of what a crossing with an output of so many bytes came to.
pub fn crossing_ways(due: &Due, length: usize) -> Vec<&'static str> {
    let [first, second] = match due {
        Due::Refused(..) => [None; 2],
        Due::Apart => [Some(APART), also(NO_OUTPUT, length == 0)],
        Due::TooLong(bytes) => [Some(TOO_LONG), also(ONE_TOO_LONG, *bytes == MAX_TEXT + 1)],
        Due::Shown(subject) if subject.len() > length => [None; 2],
        Due::Shown(subject) => [Some(SHOWN), also(LONGEST_SHOWN, subject.len() == MAX_TEXT)],
    };
    [first, second].into_iter().flatten().collect()
}

#[derive(Default)]
pub struct Seen {
    answers: BTreeMap<(&'static str, u64), u64>,
    ways: BTreeMap<&'static str, u64>,
    /// Tokens and outputs of made texts.
    pub made: Met<(Kind, load::met::Event)>,
    /// What whole moves came to, and at which place.
    pub moves: Met<moves::met::Event>,
    /// What resolves on caches made by hand came to, and at which slot.
    pub slots: Met<slots::met::Event>,
}

impl Seen {
    /// A call gave an answer of this number.
    pub fn answer(&mut self, call: &'static str, number: u64) {
        *self.answers.entry((call, number)).or_default() += 1;
    }

    /// One of the other kinds happened.
    pub fn way(&mut self, way: &'static str) {
        *self.ways.entry(way).or_default() += 1;
    }

    /// What others saw, too.
    pub fn add(&mut self, other: Seen) {
        for (answer, count) in other.answers {
            *self.answers.entry(answer).or_default() += count;
        }
        for (way, count) in other.ways {
            *self.ways.entry(way).or_default() += count;
        }
        self.made.add(other.made);
        self.moves.add(other.moves);
        self.slots.add(other.slots);
    }

    fn answered(&self, call: &'static str, number: u64) -> u64 {
        self.answers.get(&(call, number)).copied().unwrap_or(0)
    }

    /// How many calls were made in all.
    pub fn calls(&self) -> u64 {
        self.answers.values().sum()
    }

    /// Prints the counts of some calls, by answer and by what else must happen. What never came up, though it must.
    fn report_on(
        &self,
        about: &str,
        answers: &[(&'static str, &[u64])],
        ways: &[&'static str],
    ) -> Vec<String> {
        let mut missing = Vec::new();
        let own = |call: &str| answers.iter().any(|(own, _)| *own == call);
        let counts = self.answers.iter().filter(|((call, _), _)| own(call));
        let calls: u64 = counts.map(|(_, count)| count).sum();
        println!("{about}: {calls}");
        for &(call, numbers) in answers {
            let counts: BTreeMap<u64, u64> = numbers
                .iter()
                .map(|&number| (number, self.answered(call, number)))
                .collect();
            println!("  {call}, answers by number: {counts:?}");
            let never = numbers.iter().filter(|number| counts[number] == 0);
            missing.extend(never.map(|number| format!("{call} answered by {number}")));
        }
        for way in ways {
            let count = self.ways.get(way).copied().unwrap_or(0);
            println!("{count:>12} {way}");
            if count == 0 {
                missing.push(way.to_string());
            }
        }
        missing
    }

    /// Prints every count. What never came up, though it must.
    pub fn report(&self) -> Vec<String> {
        let ways = [&WAYS[..], &sights::WAYS].concat();
        let calls = self.report_on("calls on snapshots and caches", &ANSWERS, &ways);
        let slots_met = slots::met::report(&self.slots);
        let about = "crossings of two patterns";
        let crossings = self.report_on(about, &CROSSING_ANSWERS, &CROSSING_WAYS);
        let about = "made patterns and subjects";
        let made = self.report_on(about, &MADE_ANSWERS, &[]);
        let made_met = load::met::report(&self.made);
        let moves = self.report_on("whole moves", &MOVE_ANSWERS, &[]);
        let moves_met = moves::met::report(&self.moves);
        [
            calls, slots_met, crossings, made, made_met, moves, moves_met,
        ]
        .concat()
    }
}
