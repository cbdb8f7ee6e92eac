//! The first table's stamp, where the router is meant to differ: it is 0, whatever generation build was given. The original keeps that generation. The store
//! that is stamped with it too then changes nothing for its cache, which serves the old list; ours serves the new one. Both are seen here.
use crate::calls::any_slots;
use crate::tally::{Family, Tally};
use compare::lists::Line;
use compare::model_cache;
use compare::model_snapshot::{answer, state_after, state_made};
use compare::random::Random;
use compare::{original, original_calls};
use oracle::resolve_cache::ResolveCache;
use oracle::sublist::SublistSnapshot;
use router::raw::{self, Answer, CacheState, SnapshotState};

/// A first table built as any of these, and as 0.
const MOST: u64 = 20;

const ROUTED_7: [usize; 2] = [1, 7];
const NO_STREAM: [usize; 2] = [0, 0];

/// How many stores it takes until one is stamped with the generation. 0 comes again only after 2^64.
fn stores(generation: u64) -> u64 {
    generation.max(1)
}

/// The first table, `a` to 7, built as `generation`; verdict on `a`; stores of the empty table; verdict on `a`.
fn ours(random: &mut Random, generation: u64) -> [Answer; 2] {
    let (mut nodes, mut targets, mut area) = ([0; 32], [0; 1], [0; 33]);
    let built = raw::build(&[0, 1, 7], b"a", &mut nodes, &mut targets, generation);
    assert_eq!((built.first, built.third), (2, generation));
    let made = raw::snapshot_new(2, 1, generation, &nodes, &targets, &mut area);
    let mut snapshot = state_made(made);
    let mut slots = any_slots(random, 1);
    let mut cache = CacheState {
        capacity: 1,
        ..CacheState::default()
    };
    let mut verdict = |snapshot: SnapshotState, area: &[u32]| {
        let (stamps, keys, kept) = (&mut slots.stamps, &mut slots.keys, &mut slots.kept);
        let call = raw::resolve_single_home_cached;
        let told = call(cache, stamps, keys, kept, snapshot, area, b"a", &mut [0]);
        cache = model_cache::state_after(&told);
        answer(told.number, &[told.first as usize, told.second as usize])
    };
    let before = verdict(snapshot, &area);
    for _ in 0..stores(generation) {
        let stored = raw::store(snapshot, 1, 0, generation, &[0; 16], &[], &mut area);
        snapshot = state_after(stored);
    }
    [before, verdict(snapshot, &area)]
}

/// The same calls on the original.
fn theirs(generation: u64) -> [Answer; 2] {
    let table = |lines: &[Line], generation| {
        original::build(lines, generation).expect("the list is accepted")
    };
    let snapshot = SublistSnapshot::new(table(&[(b"a".to_vec(), 7)], generation));
    let mut cache = ResolveCache::with_capacity(1);
    let mut verdict = |snapshot: &SublistSnapshot<u32>| {
        original_calls::resolve_single_home_cached(&mut cache, snapshot, b"a")
    };
    let before = verdict(&snapshot);
    for _ in 0..stores(generation) {
        snapshot.store(table(&[], 0));
    }
    [before, verdict(&snapshot)]
}

pub fn run(tally: &mut Tally, random: &mut Random) {
    let verdicts = |behind: [usize; 2]| [answer(0, &ROUTED_7), answer(0, &behind)];
    for generation in 0..=MOST {
        let inputs = || format!("  a 7 built as {generation}\n");
        let kept = if generation == 0 { NO_STREAM } else { ROUTED_7 };
        tally.compare_on(
            "the original's verdicts",
            inputs,
            theirs(generation),
            verdicts(kept),
        );
        tally.compare_on(
            "verdicts",
            inputs,
            ours(random, generation),
            verdicts(NO_STREAM),
        );
    }
    tally.report(
        Family::Calls,
        "first tables built as 0 to 20, the original's cache serving the old list from 1 on",
    );
}
