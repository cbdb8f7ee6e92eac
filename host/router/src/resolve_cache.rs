//! The cache of resolved subjects, over lent areas.
use crate::answers::{cache_after, part, resolved_values, size, values};
use crate::limits::DEFAULT_CAPACITY;
use crate::raw::{self, CacheState, Resolve};
use crate::{Refusal, Snapshot};

/// A cache that keeps the targets of the latest subjects, for the generation of one snapshot: the original's `ResolveCache`.
#[derive(Debug)]
pub struct ResolveCache<'a> {
    state: CacheState,
    /// A number a slot: the tick of its last use.
    stamps: &'a mut [u64],
    /// Four lists of a byte a slot (the subject's length less one, the number of targets, its mark of two bytes), then 256 bytes a slot: the subject.
    keys: &'a mut [u8],
    /// 16 words a slot: the targets.
    kept: &'a mut [u32],
}

/// The list that a resolve found, and whether the cache had it: then no walk was made, and the output is as it was.
#[derive(Clone, Copy, Debug, PartialEq, Eq)]
pub struct Listed<'r> {
    pub list: &'r [u32],
    pub hit: bool,
}

impl CacheState {
    /// The state of a fresh cache of so many slots, 0 counting as 1. A resolve checks that its areas are long enough.
    pub const fn fresh(capacity: usize) -> CacheState {
        CacheState {
            capacity: if capacity == 0 { 1 } else { capacity },
            used: 0,
            generation: 0,
            tick: 0,
            walks: 0,
        }
    }
}

impl<'a> ResolveCache<'a> {
    /// The slots of a cache made by [`ResolveCache::new`].
    pub const DEFAULT_CAPACITY: usize = DEFAULT_CAPACITY;

    /// A fresh cache of 1,024 slots; or 17.
    pub fn new(
        stamps: &'a mut [u64],
        keys: &'a mut [u8],
        kept: &'a mut [u32],
    ) -> Result<ResolveCache<'a>, Refusal> {
        ResolveCache::with_capacity(DEFAULT_CAPACITY, stamps, keys, kept)
    }

    /// A fresh cache of so many slots, 0 counting as 1; or 17.
    /// [`crate::stamp_numbers`], [`crate::key_bytes`] and [`crate::kept_words`] say how long the areas must be.
    pub fn with_capacity(
        capacity: usize,
        stamps: &'a mut [u64],
        keys: &'a mut [u8],
        kept: &'a mut [u32],
    ) -> Result<ResolveCache<'a>, Refusal> {
        let made = raw::cache_new(capacity, stamps, keys, kept);
        values(made.number, [0; 3])?;
        let state = CacheState {
            capacity: size(made.capacity),
            used: size(made.used),
            generation: made.generation,
            tick: made.tick,
            walks: made.walks,
        };
        Ok(ResolveCache::from_parts(state, stamps, keys, kept))
    }

    /// A cache of any state and areas. Every call on it ends with a result or a refusal. Where the slots lie in `keys` follows from the state's capacity.
    pub fn from_parts(
        state: CacheState,
        stamps: &'a mut [u64],
        keys: &'a mut [u8],
        kept: &'a mut [u32],
    ) -> ResolveCache<'a> {
        ResolveCache {
            state,
            stamps,
            keys,
            kept,
        }
    }

    /// The state.
    pub const fn state(&self) -> CacheState {
        self.state
    }

    /// The most subjects that the cache keeps.
    pub const fn capacity(&self) -> usize {
        self.state.capacity
    }

    /// How many subjects it keeps.
    pub const fn len(&self) -> usize {
        self.state.used
    }

    /// Whether it keeps none.
    pub const fn is_empty(&self) -> bool {
        self.state.used == 0
    }

    /// How many resolves walked the table.
    pub const fn walk_count(&self) -> u64 {
        self.state.walks
    }

    /// The generation that the kept lists belong to.
    pub const fn generation(&self) -> u64 {
        self.state.generation
    }

    /// The cache is emptied; its generation and its walks remain.
    pub fn clear(&mut self) {
        self.state = raw::cache_clear(self.state);
    }

    /// The targets of a subject, kept or found by a walk; or 1 to 9, 17 to 19, 21.
    pub fn resolve<'r>(
        &'r mut self,
        snapshot: &Snapshot<'_>,
        subject: &[u8],
        out: &'r mut [u32],
    ) -> Result<Listed<'r>, Refusal> {
        let [lies, start, length] = self.call(raw::resolve, snapshot, subject, out)?;
        Ok(match lies {
            0 => Listed {
                list: part(self.kept, start, length),
                hit: true,
            },
            _ => Listed {
                list: part(out, start, length),
                hit: false,
            },
        })
    }

    /// The verdict's kind and value.
    pub(crate) fn resolve_verdict(
        &mut self,
        snapshot: &Snapshot<'_>,
        subject: &[u8],
        out: &mut [u32],
    ) -> Result<[u64; 2], Refusal> {
        let verdict = self.call(raw::resolve_single_home_cached, snapshot, subject, out);
        verdict.map(|[kind, value, _]| [kind, value])
    }

    /// Takes over the state that a resolve leaves; its values, or the refusal.
    fn call(
        &mut self,
        resolve: Resolve,
        snapshot: &Snapshot<'_>,
        subject: &[u8],
        out: &mut [u32],
    ) -> Result<[u64; 3], Refusal> {
        let (standing, area) = snapshot.parts();
        let resolved = resolve(
            self.state,
            self.stamps,
            self.keys,
            self.kept,
            standing,
            area,
            subject,
            out,
        );
        self.state = cache_after(&resolved);
        resolved_values(&resolved)
    }
}
