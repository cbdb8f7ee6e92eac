//! The original's snapshots and caches, and how far a call on them may be compared, by the scope document's words: a cache in full until its first resolve
//! of a subject over 256 bytes or with a list over 16 targets; from then on only lists and verdicts, and only while no two tables that stood had one generation.
use oracle::resolve_cache::ResolveCache;
use oracle::sublist::{Sublist, SublistSnapshot};
use std::collections::HashSet;
use std::mem::swap;

/// What of a resolve is compared.
#[derive(Clone, Copy, Debug, PartialEq, Eq)]
pub enum Scope {
    Full,
    ListOrVerdict,
    Nothing,
}

/// What a cache tells of itself.
#[derive(Debug, PartialEq, Eq)]
pub struct Numbers {
    pub capacity: usize,
    pub len: usize,
    pub generation: u64,
    pub walks: u64,
}

/// A snapshot that is not at hand, and whether a call was made on it.
struct Other {
    snapshot: SublistSnapshot<u32>,
    met: bool,
}

pub struct Theirs {
    /// The snapshot at hand, and whether a call was made on it.
    pub snapshot: SublistSnapshot<u32>,
    met: bool,
    others: Vec<Other>,
    pub caches: Vec<ResolveCache<u32>>,
    /// Whether a cache had such a resolve.
    parted: Vec<bool>,
    /// The generations of the tables that stood where a call was made, and whether two had the same.
    stood: HashSet<u64>,
    twice: bool,
}

impl Theirs {
    /// Fresh snapshots, the first of them at hand, and fresh caches.
    pub fn new(
        first: SublistSnapshot<u32>,
        others: Vec<SublistSnapshot<u32>>,
        capacities: &[usize],
    ) -> Theirs {
        let other = |snapshot| Other {
            snapshot,
            met: false,
        };
        Theirs {
            stood: HashSet::new(),
            twice: false,
            snapshot: first,
            met: false,
            others: others.into_iter().map(other).collect(),
            caches: capacities
                .iter()
                .map(|&capacity| ResolveCache::with_capacity(capacity))
                .collect(),
            parted: vec![false; capacities.len()],
        }
    }

    /// Another snapshot is taken in hand.
    pub fn turn(&mut self, other: usize) {
        let other = &mut self.others[other];
        swap(&mut self.snapshot, &mut other.snapshot);
        swap(&mut self.met, &mut other.met);
    }

    /// A call is made on the snapshot at hand: the first one meets its first table.
    pub fn meet(&mut self) {
        if !self.met {
            self.met = true;
            self.twice |= !self.stood.insert(self.snapshot.generation());
        }
    }

    /// The generation that the table is stamped with.
    pub fn store(&mut self, table: Sublist<u32>) -> u64 {
        let stamped = self.snapshot.store(table);
        self.twice |= !self.stood.insert(stamped);
        stamped
    }

    /// What of an accepted resolve on this cache is compared. Its subject has over 256 bytes or its list over 16 targets, or not.
    pub fn scope(&mut self, cache: usize, over: bool) -> Scope {
        self.parted[cache] |= over;
        match (self.parted[cache], self.twice) {
            (false, _) => Scope::Full,
            (true, false) => Scope::ListOrVerdict,
            (true, true) => Scope::Nothing,
        }
    }

    /// Whether this cache's numbers are compared.
    pub fn in_full(&self, cache: usize) -> bool {
        !self.parted[cache]
    }

    /// Whether two tables that stood had one generation, so that a cache may hold lists of another table.
    pub fn twice(&self) -> bool {
        self.twice
    }

    pub fn numbers(&self, cache: usize) -> Numbers {
        let cache = &self.caches[cache];
        Numbers {
            capacity: cache.capacity(),
            len: cache.len(),
            generation: cache.generation(),
            walks: cache.walk_count(),
        }
    }
}
