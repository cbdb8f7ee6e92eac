//! What a resolve comes upon in the slots of a cache: marks without their bytes, bytes without their mark, the same in slots that are not in use, and bad slots.
use crate::cabinet::Cache;
use compare::model_cache::{Head, Slots, Stage, Way};
use compare::model_mark;
use router::limits::{KEY_BYTES, SLOT_TARGETS};

/// The bytes of a slot's mark that are other than those of the subject's.
#[derive(Clone, Copy, Debug, PartialEq, Eq, PartialOrd, Ord)]
pub enum Mark {
    Same,
    OtherLow,
    OtherHigh,
    OtherBoth,
}

/// A slot's key beside the subject: the same, another of the same length, or one of another length.
#[derive(Clone, Copy, Debug, PartialEq, Eq, PartialOrd, Ord)]
pub enum Key {
    Same,
    SameLength,
    OtherLength,
}

/// How a slot looks to a subject.
#[derive(Clone, Copy, Debug, PartialEq, Eq, PartialOrd, Ord)]
pub struct Sight {
    pub mark: Mark,
    pub key: Key,
}

const MARKS: [Mark; 4] = [Mark::Same, Mark::OtherLow, Mark::OtherHigh, Mark::OtherBoth];
const KEYS: [Key; 3] = [Key::Same, Key::SameLength, Key::OtherLength];

impl Mark {
    fn of(mark: u16, subject: u16) -> Mark {
        let [low, high] = (mark ^ subject).to_le_bytes().map(|off| off != 0);
        match (low, high) {
            (false, false) => Mark::Same,
            (true, false) => Mark::OtherLow,
            (false, true) => Mark::OtherHigh,
            (true, true) => Mark::OtherBoth,
        }
    }
}

impl Sight {
    pub fn all() -> impl Iterator<Item = Sight> {
        let with = |mark| KEYS.map(|key| Sight { mark, key });
        MARKS.into_iter().flat_map(with)
    }

    /// A slot of a cache of this capacity, to a subject of this mark.
    fn of(slots: &Slots, capacity: usize, slot: usize, subject: &[u8], mark: u16) -> Sight {
        let Head {
            length, mark: own, ..
        } = slots.head(capacity, slot);
        let key = match slots.key(capacity, slot) {
            Some(key) if key == subject => Key::Same,
            _ if length == subject.len() => Key::SameLength,
            _ => Key::OtherLength,
        };
        let mark = Mark::of(own, mark);
        Sight { mark, key }
    }

    pub fn new(slots: &Slots, capacity: usize, slot: usize, subject: &[u8]) -> Sight {
        Sight::of(slots, capacity, slot, subject, model_mark::mark(subject))
    }

    /// Whether the slot keeps the subject, if it is in use.
    pub fn keeps(self) -> bool {
        self.mark == Mark::Same && self.key == Key::Same
    }

    fn same_bytes(self) -> bool {
        self.key == Key::Same
    }

    fn same_mark_alone(self) -> bool {
        self.mark == Mark::Same && self.key != Key::Same
    }
}

const EQUAL_KEYS: &str = "hits on the first of equal keys";
const BEHIND_BYTES: &str = "hits behind a slot with the subject's bytes and another mark";
const BEHIND_MARK: &str = "hits behind a slot with the subject's mark and other bytes";
const OTHER_LOW: &str = "misses though a slot has the subject's bytes, its mark's low byte another";
const OTHER_HIGH: &str = "the same, its high byte another";
const OTHER_BOTH: &str = "the same, both another";
const TWICE: &str = "misses though two slots have the subject's bytes";
const SAME_MARK: &str = "misses though a slot has the subject's mark, its bytes others";
const SAME_LENGTH: &str = "the same with as many bytes";
const UNUSED: &str = "misses though a slot not in use has the subject's mark and bytes";
const UNUSED_BAD: &str = "hits and misses though a slot not in use is bad";
const NO_SLOT: &str = "refusals of a capacity of 0";
const OVER_USED: &str = "refusals of more slots in use than there are";
const LONG_KEY: &str = "refusals of one slot, by its key's length alone";
const MANY_TARGETS: &str = "refusals of one slot, by its number of targets alone";
const BOTH_OVER: &str = "refusals of one slot, by both";
const LAST_BAD: &str = "refusals of one slot, the last in use";

pub const WAYS: [&str; 17] = [
    EQUAL_KEYS,
    BEHIND_BYTES,
    BEHIND_MARK,
    OTHER_LOW,
    OTHER_HIGH,
    OTHER_BOTH,
    TWICE,
    SAME_MARK,
    SAME_LENGTH,
    UNUSED,
    UNUSED_BAD,
    NO_SLOT,
    OVER_USED,
    LONG_KEY,
    MANY_TARGETS,
    BOTH_OVER,
    LAST_BAD,
];

/// Whether a key is too long, and whether the targets are too many.
fn over(head: Head) -> [bool; 2] {
    [head.length > KEY_BYTES, head.targets > SLOT_TARGETS]
}

/// What a resolve comes upon, as it is before the call.
#[derive(Default)]
pub struct Sights {
    /// The slots in use that have the subject's mark or bytes, in turn.
    used: Vec<Sight>,
    /// Whether one that is not in use keeps the subject, and whether one is bad.
    unused_keeps: bool,
    unused_bad: bool,
    /// The names of why the cache is bad.
    bad: Vec<&'static str>,
}

impl Sights {
    /// Those of a cache on a table of this generation. Nothing where the areas are too short for its capacity.
    pub fn new(cache: &Cache, generation: u64, subject: &[u8]) -> Sights {
        let Cache { state, slots } = cache;
        let capacity = state.capacity;
        if slots.short(capacity) {
            return Sights::default();
        }
        let used = if state.generation == generation {
            state.used.min(capacity)
        } else {
            0
        };
        let mark = model_mark::mark(subject);
        let sight = |slot| Sight::of(slots, capacity, slot, subject, mark);
        let bad = |slot| over(slots.head(capacity, slot)) != [false; 2];
        let related = |sight: &Sight| sight.mark == Mark::Same || sight.same_bytes();
        Sights {
            used: (0..used).map(sight).filter(related).collect(),
            unused_keeps: (used..capacity).any(|slot| sight(slot).keeps()),
            unused_bad: (used..capacity).any(bad),
            bad: bad_ways(cache),
        }
    }

    /// The names of what a resolve came upon that ended in this way.
    pub fn ways(&self, way: Way) -> Vec<&'static str> {
        match way {
            Way::Refused(Stage::Cache) => self.bad.clone(),
            Way::Refused(_) => Vec::new(),
            Way::Hit => self.hit(),
            Way::Kept | Way::Dropped { .. } | Way::NotKept => self.missed(),
        }
    }

    fn hit(&self) -> Vec<&'static str> {
        let mut parts = self.used.splitn(2, |sight| sight.keeps());
        let [before, behind] = [parts.next(), parts.next()].map(Option::unwrap_or_default);
        named(&[
            (EQUAL_KEYS, behind.iter().any(|sight| sight.keeps())),
            (BEHIND_BYTES, before.iter().any(|sight| sight.same_bytes())),
            (
                BEHIND_MARK,
                before.iter().any(|sight| sight.same_mark_alone()),
            ),
            (UNUSED_BAD, self.unused_bad),
        ])
    }

    fn missed(&self) -> Vec<&'static str> {
        let same_bytes = self.used.iter().filter(|sight| sight.same_bytes());
        let with = |mark| {
            let mut same_bytes = same_bytes.clone();
            same_bytes.any(|sight| sight.mark == mark)
        };
        let mut same_mark = self.used.iter().filter(|sight| sight.same_mark_alone());
        named(&[
            (OTHER_LOW, with(Mark::OtherLow)),
            (OTHER_HIGH, with(Mark::OtherHigh)),
            (OTHER_BOTH, with(Mark::OtherBoth)),
            (TWICE, same_bytes.clone().count() > 1),
            (SAME_MARK, same_mark.clone().next().is_some()),
            (
                SAME_LENGTH,
                same_mark.any(|sight| sight.key == Key::SameLength),
            ),
            (UNUSED, self.unused_keeps),
            (UNUSED_BAD, self.unused_bad),
        ])
    }
}

/// The names of what is so.
fn named(names: &[(&'static str, bool)]) -> Vec<&'static str> {
    let so = names.iter().filter(|(_, so)| *so);
    so.map(|(name, _)| *name).collect()
}

/// The names of why a cache is bad whose areas are long enough.
fn bad_ways(cache: &Cache) -> Vec<&'static str> {
    let Cache { state, slots } = cache;
    let (capacity, used) = (state.capacity, state.used);
    if capacity == 0 || used > capacity {
        return named(&[(NO_SLOT, capacity == 0), (OVER_USED, capacity > 0)]);
    }
    let overs = (0..used).map(|slot| (slot, over(slots.head(capacity, slot))));
    let bad: Vec<_> = overs.filter(|(_, over)| *over != [false; 2]).collect();
    named(&[
        (LONG_KEY, matches!(bad[..], [(_, [true, false])])),
        (MANY_TARGETS, matches!(bad[..], [(_, [false, true])])),
        (BOTH_OVER, matches!(bad[..], [(_, [true, true])])),
        (LAST_BAD, matches!(bad[..], [(slot, _)] if slot + 1 == used)),
    ])
}
