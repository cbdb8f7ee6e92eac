//! The resolve cache by its definitions, apart from the router: what each call answers, and the state and areas that it leaves. States and areas may be any.
use crate::area::Words;
use crate::model_mark::mark;
use crate::model_snapshot::{answer, standing};
use crate::original;
use router::limits::{KEY_BYTES, MAX_CAPACITY, SLOT_LISTS, SLOT_TARGETS};
use router::raw::{Answer, CacheState, MadeCache, Resolved, SnapshotState};

/// The areas of a cache. Where a slot's bytes lie in `keys` follows from the cache's capacity: four lists of so many bytes, then 256 bytes a slot.
#[derive(Clone, Debug, Default, PartialEq, Eq)]
pub struct Slots {
    pub stamps: Vec<u64>,
    pub keys: Vec<u8>,
    pub kept: Vec<u32>,
}

/// What a slot says of itself in the four lists.
#[derive(Clone, Copy, Debug, PartialEq, Eq)]
pub struct Head {
    /// Of the key, 1 to 2,048.
    pub length: usize,
    /// How many, 0 to 31.
    pub targets: usize,
    pub mark: u16,
}

/// Where a resolve turned back.
#[derive(Clone, Copy, Debug, PartialEq, Eq)]
pub enum Stage {
    Subject,
    Cache,
    /// At the counts of the standing table. The cache may keep the subject's list.
    Counts {
        would_hit: bool,
    },
    Hit,
    Walk,
}

/// What a resolve came to.
#[derive(Clone, Copy, Debug, PartialEq, Eq)]
pub enum Way {
    Refused(Stage),
    /// A kept list.
    Hit,
    /// A walk whose list went into an unused slot.
    Kept,
    /// A walk whose list went into the slot of smallest stamp; another may have the same stamp.
    Dropped {
        equal_stamps: bool,
    },
    /// A walk of which nothing is kept: a subject over 256 bytes, or a list over 16 targets.
    NotKept,
}

impl Head {
    /// What a slot says that keeps so many targets under a key.
    pub fn of(key: &[u8], targets: usize) -> Head {
        Head {
            length: key.len(),
            targets,
            mark: mark(key),
        }
    }
}

/// Where a slot's key begins.
fn key_start(capacity: usize, slot: usize) -> usize {
    SLOT_LISTS * capacity + KEY_BYTES * slot
}

impl Slots {
    /// The key's length less one has its low eight bits in the first list. The second has the rest of it in its upper three bits, and the number of targets in
    /// the lower five. The third and the fourth have the mark, low byte and high byte.
    pub fn head(&self, capacity: usize, slot: usize) -> Head {
        let [first, second, low, high] = [0, 1, 2, 3].map(|list| self.keys[list * capacity + slot]);
        Head {
            length: 1 + usize::from(first) + 256 * usize::from(second / 32),
            targets: usize::from(second % 32),
            mark: u16::from_le_bytes([low, high]),
        }
    }

    /// A slot is made to say this of itself, with these bytes over the first of its key.
    pub fn put(&mut self, capacity: usize, slot: usize, head: Head, key: &[u8]) {
        let [first, rest] = [(head.length - 1) % 256, (head.length - 1) / 256];
        let [low, high] = head.mark.to_le_bytes();
        let bytes = [first as u8, (32 * rest + head.targets) as u8, low, high];
        for (list, byte) in bytes.into_iter().enumerate() {
            self.keys[list * capacity + slot] = byte;
        }
        self.keys[key_start(capacity, slot)..][..key.len()].copy_from_slice(key);
    }

    /// The key of a slot, unless it is longer than the rest of the area.
    pub fn key(&self, capacity: usize, slot: usize) -> Option<&[u8]> {
        let length = self.head(capacity, slot).length;
        self.keys[key_start(capacity, slot)..].get(..length)
    }

    /// 17: capacity over 1,024, or an area has not so many slots.
    pub fn short(&self, capacity: usize) -> bool {
        capacity > MAX_CAPACITY
            || self.stamps.len() < capacity
            || self.keys.len() < (SLOT_LISTS + KEY_BYTES) * capacity
            || self.kept.len() < SLOT_TARGETS * capacity
    }

    /// 18: capacity 0, more slots used than there are, or a used slot with a longer key or more targets than it can hold.
    fn bad(&self, cache: CacheState) -> bool {
        let CacheState { capacity, used, .. } = cache;
        let bad_slot = |slot| {
            let head = self.head(capacity, slot);
            head.length > KEY_BYTES || head.targets > SLOT_TARGETS
        };
        capacity == 0 || used > capacity || (0..used).any(bad_slot)
    }

    /// The first used slot that keeps the subject: its mark and its bytes are the subject's.
    fn find(&self, cache: CacheState, subject: &[u8]) -> Option<usize> {
        let CacheState { capacity, used, .. } = cache;
        let mark = mark(subject);
        let keeps = |slot: &usize| {
            self.head(capacity, *slot).mark == mark && self.key(capacity, *slot) == Some(subject)
        };
        (0..used).find(keeps)
    }

    /// The slot of smallest stamp, the lowest on a tie.
    fn oldest(&self, used: usize) -> usize {
        let stamps = (0..used).map(|slot| (self.stamps[slot], slot));
        stamps.min().map_or(0, |(_, slot)| slot)
    }

    /// Whether another used slot has the same stamp.
    fn equal_stamps(&self, slot: usize, used: usize) -> bool {
        let mut others = (0..used).filter(|&other| other != slot);
        others.any(|other| self.stamps[other] == self.stamps[slot])
    }

    /// The list goes into a slot, under a key and with a stamp. The rest of the slot stays.
    fn keep(&mut self, capacity: usize, slot: usize, key: &[u8], list: &[u32], stamp: u64) {
        self.put(capacity, slot, Head::of(key, list.len()), key);
        self.kept[slot * SLOT_TARGETS..][..list.len()].copy_from_slice(list);
        self.stamps[slot] = stamp;
    }
}

/// `with_capacity`: 0 turns into 1. Or 17.
pub fn with_capacity(capacity: usize, slots: &Slots) -> MadeCache {
    let capacity = capacity.max(1);
    if slots.short(capacity) {
        return MadeCache {
            number: 17,
            ..MadeCache::default()
        };
    }
    MadeCache {
        capacity: capacity as u64,
        ..MadeCache::default()
    }
}

/// `clear`: emptied, the tick 0; generation and walks remain.
pub fn clear(cache: CacheState) -> CacheState {
    CacheState {
        used: 0,
        tick: 0,
        ..cache
    }
}

/// On another generation: emptied, with that generation.
fn adopt(generation: u64, cache: CacheState) -> CacheState {
    if cache.generation == generation {
        return cache;
    }
    CacheState {
        generation,
        ..clear(cache)
    }
}

/// An answer with the cache afterwards.
pub fn resolved(answer: Answer, cache: CacheState) -> Resolved {
    Resolved {
        number: answer.number,
        first: answer.first,
        second: answer.second,
        third: answer.third,
        capacity: cache.capacity as u64,
        used: cache.used as u64,
        generation: cache.generation,
        tick: cache.tick,
        walks: cache.walks,
    }
}

/// 1 to 9 of the subject, then 17, 18.
fn before_table(cache: CacheState, slots: &Slots, subject: &[u8]) -> Result<(), (Answer, Stage)> {
    let parsed = original::parse_literal(subject);
    if !parsed.accepted() {
        return Err((parsed, Stage::Subject));
    }
    if slots.short(cache.capacity) {
        return Err((answer(17, &[]), Stage::Cache));
    }
    if slots.bad(cache) {
        return Err((answer(18, &[]), Stage::Cache));
    }
    Ok(())
}

/// A hit: 21, or the slot is stamped and the list lies in `kept`. The output stays.
fn hit(cache: CacheState, slots: &mut Slots, slot: usize, places: usize) -> Answer {
    let count = slots.head(cache.capacity, slot).targets;
    if places < count {
        return answer(21, &[count]);
    }
    slots.stamps[slot] = cache.tick;
    answer(0, &[0, slot * SLOT_TARGETS, count])
}

/// A list goes into the first unused slot, or into the one of smallest stamp.
fn keep(cache: &mut CacheState, slots: &mut Slots, subject: &[u8], list: &[u32]) -> Way {
    let CacheState { capacity, used, .. } = *cache;
    if used < capacity {
        slots.keep(capacity, used, subject, list, cache.tick);
        cache.used += 1;
        return Way::Kept;
    }
    let slot = slots.oldest(used);
    let equal_stamps = slots.equal_stamps(slot, used);
    slots.keep(capacity, slot, subject, list, cache.tick);
    Way::Dropped { equal_stamps }
}

/// A walk: 19, 21, or the list goes into the output, and into a slot if it and the subject are short enough. The cache is on the table's generation.
fn miss(
    mut cache: CacheState,
    slots: &mut Slots,
    table: Words,
    subject: &[u8],
    out: &mut [u32],
) -> Result<(Resolved, Way), Answer> {
    let (list, _) = table.walk(subject).map_err(|_| answer(19, &[]))?;
    if list.len() > out.len() {
        return Err(answer(21, &[list.len()]));
    }
    out[..list.len()].copy_from_slice(&list);
    cache.tick = cache.tick.wrapping_add(1);
    cache.walks = cache.walks.wrapping_add(1);
    let way = if subject.len() > KEY_BYTES || list.len() > SLOT_TARGETS {
        Way::NotKept
    } else {
        keep(&mut cache, slots, subject, &list)
    };
    Ok((resolved(answer(0, &[1, 0, list.len()]), cache), way))
}

/// `resolve`: where the list lies (0 in `kept`, 1 in `out`), its first place and its length; or 1 to 9, 17, 18, 19, 21, which change nothing.
pub fn resolve(
    cache: CacheState,
    slots: &mut Slots,
    snapshot: SnapshotState,
    area: &[u32],
    subject: &[u8],
    out: &mut [u32],
) -> (Resolved, Way) {
    let refused = |refusal, stage| (resolved(refusal, cache), Way::Refused(stage));
    if let Err((refusal, stage)) = before_table(cache, slots, subject) {
        return refused(refusal, stage);
    }
    let mut on = adopt(snapshot.generation, cache);
    let found = slots.find(on, subject);
    let Some(table) = standing(snapshot, area) else {
        let would_hit = found.is_some();
        return refused(answer(19, &[]), Stage::Counts { would_hit });
    };
    if let Some(slot) = found {
        on.tick = on.tick.wrapping_add(1);
        let told = hit(on, slots, slot, out.len());
        if !told.accepted() {
            return refused(told, Stage::Hit);
        }
        return (resolved(told, on), Way::Hit);
    }
    miss(on, slots, table, subject, out).unwrap_or_else(|refusal| refused(refusal, Stage::Walk))
}

/// The cache's state after a resolve.
pub fn state_after(resolved: &Resolved) -> CacheState {
    CacheState {
        capacity: resolved.capacity as usize,
        used: resolved.used as usize,
        generation: resolved.generation,
        tick: resolved.tick,
        walks: resolved.walks,
    }
}

/// The list that an accepted resolve hands back: a part of the cache's targets or of the output.
pub fn list_of<'a>(resolved: &Resolved, kept: &'a [u32], out: &'a [u32]) -> &'a [u32] {
    let side = if resolved.first == 0 { kept } else { out };
    &side[resolved.second as usize..][..resolved.third as usize]
}
