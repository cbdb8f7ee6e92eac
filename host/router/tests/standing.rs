//! The snapshot, the cache and the verdicts through the library, on the scope document's examples and at the edges of their areas.
mod common;

use common::{Owned, ROW};
use router::raw::{self, CacheState, SnapshotState};
use router::{
    kept_words, key_bytes, resolve_single_home, resolve_single_home_cached, single_home,
    stamp_numbers, table_words, Refusal, Resolution, ResolveCache, Snapshot, Table, TextRefusal,
    DEFAULT_CAPACITY,
};

/// The areas of a cache of so many slots.
struct Areas {
    stamps: Vec<u64>,
    keys: Vec<u8>,
    kept: Vec<u32>,
}

impl Areas {
    fn of(slots: usize) -> Areas {
        Areas {
            stamps: vec![0; stamp_numbers(slots)],
            keys: vec![0; key_bytes(slots)],
            kept: vec![0; kept_words(slots)],
        }
    }

    fn cache(&mut self, capacity: usize) -> Result<ResolveCache<'_>, Refusal> {
        ResolveCache::with_capacity(capacity, &mut self.stamps, &mut self.keys, &mut self.kept)
    }

    fn with(&mut self, state: CacheState) -> ResolveCache<'_> {
        ResolveCache::from_parts(state, &mut self.stamps, &mut self.keys, &mut self.kept)
    }
}

#[test]
fn the_first_table_and_stores() {
    let (first, empty) = (Owned::of(&[("a", 7)]), Owned::of(&[]));
    let (mut area, mut out) = ([0; 64], [0; 4]);
    let mut snapshot = Snapshot::new(&first.table(), &mut area).expect("it fits");
    assert_eq!(
        (
            snapshot.generation(),
            snapshot.node_count(),
            snapshot.target_count()
        ),
        (0, 2, 1)
    );
    let verdict = resolve_single_home(&snapshot, b"a", &mut out).expect("accepted");
    assert_eq!(
        (verdict.resolution, verdict.peak, verdict.generation),
        (Resolution::Routed(7), 1, 0)
    );
    assert_eq!(snapshot.store(&empty.table()), Ok(1));
    assert_eq!(snapshot.generation(), 1);
    let verdict = resolve_single_home(&snapshot, b"a", &mut out).expect("accepted");
    assert_eq!(
        (verdict.resolution, verdict.generation),
        (Resolution::NoStream, 1)
    );
    assert_eq!(snapshot.store(&first.table()), Ok(2));
    let found = snapshot.match_into(b"a", &mut out).expect("accepted");
    assert_eq!((found.list, found.peak, found.generation), (&[7][..], 1, 2));
}

/// The spare cabinet of 2026-03, through the C calls: a first table built as 1, then a store, which is stamped 1. The cache does not take the old list for the new.
#[test]
fn the_spare_cabinet() {
    let (mut nodes, mut targets, mut area) = ([0; 32], [0; 1], [0; 33]);
    let built = raw::build(&[0, 1, 7], b"a", &mut nodes, &mut targets, 1);
    assert_eq!((built.number, built.first, built.third), (0, 2, 1));
    let made = raw::snapshot_new(2, 1, 1, &nodes, &targets, &mut area);
    assert_eq!((made.number, made.generation, made.next), (0, 0, 1));
    let state = SnapshotState {
        nodes: 2,
        targets: 1,
        generation: made.generation,
        next: made.next,
    };
    let mut areas = Areas::of(1);
    let made = raw::cache_new(1, &areas.stamps, &areas.keys, &areas.kept);
    assert_eq!((made.number, made.capacity), (0, 1));
    let fresh = CacheState {
        capacity: 1,
        ..CacheState::default()
    };
    let mut verdict = |cache: CacheState, snapshot: SnapshotState, area: &[u32]| {
        raw::resolve_single_home_cached(
            cache,
            &mut areas.stamps,
            &mut areas.keys,
            &mut areas.kept,
            snapshot,
            area,
            b"a",
            &mut [0],
        )
    };
    let before = verdict(fresh, state, &area);
    assert_eq!((before.number, before.first, before.second), (0, 1, 7));
    let cache = CacheState {
        used: 1,
        tick: 1,
        walks: 1,
        ..fresh
    };
    let stored = raw::store(state, 1, 0, 1, &[0; 16], &[], &mut area);
    assert_eq!((stored.number, stored.stamped), (0, 1));
    let state = SnapshotState {
        nodes: 1,
        targets: 0,
        generation: stored.generation,
        next: stored.next,
    };
    let behind = verdict(cache, state, &area);
    assert_eq!((behind.number, behind.first, behind.walks), (0, 0, 2));
}

#[test]
fn refused_stores_leave_the_table() {
    let (first, row) = (Owned::of(&[("a", 7)]), Owned::of(&ROW));
    let mut area = vec![0; table_words(2, 1)];
    let mut snapshot = Snapshot::new(&first.table(), &mut area).expect("it just fits");
    assert_eq!(snapshot.store(&row.table()), Err(Refusal::StoreFull));
    let damaged = Table {
        nodes: 0,
        ..first.table()
    };
    assert_eq!(snapshot.store(&damaged), Err(Refusal::Damaged));
    let found = snapshot
        .match_into(b"a", &mut [0])
        .map(|found| (found.generation, found.peak));
    assert_eq!(found, Ok((0, 1)));
    assert_eq!(
        Snapshot::empty(&mut [0; 15]).err(),
        Some(Refusal::StoreFull)
    );
    assert!(Snapshot::empty(&mut [0; 16]).is_ok());
}

#[test]
fn the_cache_drops_the_oldest() {
    let empty = Owned::of(&[]);
    let (mut area, mut areas, mut out) = ([0; 16], Areas::of(2), [0; 4]);
    let snapshot = Snapshot::new(&empty.table(), &mut area).expect("it fits");
    let mut cache = areas.cache(2).expect("it fits");
    assert_eq!(
        (cache.capacity(), cache.len(), cache.is_empty()),
        (2, 0, true)
    );
    let mut hits = Vec::new();
    for subject in ["p", "q", "p", "r", "p", "q"] {
        let listed = cache.resolve(&snapshot, subject.as_bytes(), &mut out);
        hits.push(listed.expect("accepted").hit);
    }
    assert_eq!(hits, [false, false, true, false, true, false]);
    assert_eq!((cache.walk_count(), cache.len()), (4, 2));
    cache.clear();
    assert_eq!(
        (cache.walk_count(), cache.len(), cache.generation()),
        (4, 0, 0)
    );
}

#[test]
fn a_store_empties_the_cache() {
    let (first, row) = (Owned::of(&[("a.b", 7)]), Owned::of(&ROW));
    let (mut area, mut areas, mut out) = ([0; 100], Areas::of(4), [0; 5]);
    let mut snapshot = Snapshot::new(&first.table(), &mut area).expect("it fits");
    let mut cache = areas.cache(0).expect("0 counts as 1");
    let mut verdict = |snapshot: &Snapshot<'_>| {
        let verdict = resolve_single_home_cached(&mut cache, snapshot, b"a.b", &mut out);
        (verdict, cache.walk_count(), cache.generation())
    };
    assert_eq!(verdict(&snapshot), (Ok(Resolution::Routed(7)), 1, 0));
    assert_eq!(verdict(&snapshot), (Ok(Resolution::Routed(7)), 1, 0));
    assert_eq!(snapshot.store(&row.table()), Ok(1));
    let ambiguous = Ok(Resolution::Ambiguous { matched: 5 });
    assert_eq!(verdict(&snapshot), (ambiguous, 2, 1));
    assert_eq!(verdict(&snapshot), (ambiguous, 2, 1));
}

#[test]
fn kept_lists_and_walked_lists() {
    let row = Owned::of(&ROW);
    let (mut area, mut areas) = ([0; 100], Areas::of(4));
    let snapshot = Snapshot::new(&row.table(), &mut area).expect("it fits");
    let mut cache = areas.cache(4).expect("it fits");
    for hit in [false, true] {
        let mut out = [9; 6];
        let listed = cache
            .resolve(&snapshot, b"a.b", &mut out)
            .expect("accepted");
        assert_eq!((listed.list, listed.hit), (&[2, 4, 1, 5, 3][..], hit));
        assert_eq!(out, if hit { [9; 6] } else { [2, 4, 1, 5, 3, 9] });
    }
    let short = cache.resolve(&snapshot, b"a.b", &mut [0; 4]).err();
    assert_eq!(short, Some(Refusal::OutShort { needed: 5 }));
    let wild = TextRefusal::WildcardNotAllowed { ch: '*', index: 0 };
    assert_eq!(cache.resolve(&snapshot, b"*", &mut []), Err(wild.into()));
    assert_eq!(cache.walk_count(), 1);
}

/// What a kept list leaves in the areas of two slots. A slot with another mark is not found, though its bytes are the subject's.
#[test]
fn slots_and_their_marks() {
    let row = Owned::of(&ROW);
    let (mut area, mut areas) = ([0; 100], Areas::of(2));
    let snapshot = Snapshot::new(&row.table(), &mut area).expect("it fits");
    let resolve = |cache: &mut ResolveCache<'_>| {
        let mut out = [0; 5];
        let listed = cache.resolve(&snapshot, b"a.b", &mut out);
        (listed.map(|listed| listed.hit), cache.state())
    };
    let (hit, state) = resolve(&mut areas.cache(2).expect("it fits"));
    assert_eq!((hit, state.used), (Ok(false), 1));
    assert_eq!(areas.stamps, [1, 0]);
    assert_eq!(areas.keys[..8], [2, 0, 5, 0, 0x49, 0, 0xfc, 0]);
    assert_eq!(areas.keys[8..12], *b"a.b\0");
    assert_eq!(areas.kept[..6], [2, 4, 1, 5, 3, 0]);
    areas.keys[4] ^= 1;
    let (hit, state) = resolve(&mut areas.with(state));
    assert_eq!((hit, state.used, state.walks), (Ok(false), 2, 2));
    let (hit, _) = resolve(&mut areas.with(state));
    assert_eq!((hit, areas.stamps), (Ok(true), vec![1, 3]));
}

#[test]
fn caches_that_do_not_fit() {
    let short = Err(Refusal::CacheShort);
    assert_eq!(Areas::of(2).cache(3).map(|_| ()), short);
    assert_eq!(Areas::of(1025).cache(1025).map(|_| ()), short);
    let mut areas = Areas::of(DEFAULT_CAPACITY);
    let cache = ResolveCache::new(&mut areas.stamps, &mut areas.keys, &mut areas.kept);
    assert_eq!(cache.map(|cache| cache.capacity()), Ok(DEFAULT_CAPACITY));
}

#[test]
fn states_made_by_hand() {
    let mut area = [u32::MAX; 40];
    let state = SnapshotState {
        nodes: 2,
        targets: usize::MAX,
        ..SnapshotState::default()
    };
    let snapshot = Snapshot::from_parts(state, &mut area);
    assert_eq!(snapshot.match_into(b"a", &mut []), Err(Refusal::Damaged));
    let mut areas = Areas::of(1);
    let state = CacheState {
        capacity: 1,
        used: 2,
        ..CacheState::default()
    };
    let mut cache = areas.with(state);
    assert_eq!(
        cache.resolve(&snapshot, b"a", &mut []),
        Err(Refusal::BadSlot)
    );
    assert_eq!(cache.state(), state);
}

#[test]
fn verdicts_on_lists() {
    assert_eq!(single_home(&[]), Ok(Resolution::NoStream));
    assert_eq!(single_home(&[u32::MAX]), Ok(Resolution::Routed(u32::MAX)));
    assert_eq!(
        single_home(&[4, 4]),
        Ok(Resolution::Ambiguous { matched: 2 })
    );
}
