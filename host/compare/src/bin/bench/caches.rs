//! The rows on a cache, with a yard's table.
use crate::row::row;
use crate::yard::{known, Ours, Yard};
use compare::one_mark;
use compare::original_calls;
use oracle::binding;
use oracle::resolve_cache::ResolveCache;
use oracle::sublist::SublistSnapshot;
use router::limits::MAX_CAPACITY;
use router::raw::{self, Resolve};
use std::cell::RefCell;
use std::hint::black_box;

/// The subjects of the rows with few, the slots of a small cache, and the subjects of the rows with more than any cache holds.
const FEW: usize = 40;
pub const MANY: usize = MAX_CAPACITY + 76;

/// The subjects of the rows on one length and one mark, and the bytes of long ones.
const ALIKE: usize = 500;
const LONG: usize = 200;

type Theirs = fn(&mut ResolveCache<u32>, &SublistSnapshot<u32>, &str) -> u64;

/// A resolve of the router, of the original, and of the original on what is known to be UTF-8.
#[derive(Clone, Copy)]
struct Calls {
    ours: Resolve,
    theirs: Theirs,
    known: Theirs,
}

const LISTS: Calls = Calls {
    ours: raw::resolve,
    theirs: |cache, snapshot, text| {
        original_calls::resolve_length(cache, snapshot, text.as_bytes()).first
    },
    known: |cache, snapshot, text| cache.resolve_with(snapshot, &known(text), <[u32]>::len) as u64,
};

const VERDICTS: Calls = Calls {
    ours: raw::resolve_single_home_cached,
    theirs: |cache, snapshot, text| {
        original_calls::resolve_single_home_cached(cache, snapshot, text.as_bytes()).first
    },
    known: |cache, snapshot, text| {
        let subject = known(text);
        let verdict = binding::resolve_single_home_cached(cache, snapshot, &subject);
        original_calls::verdict(verdict).first
    },
};

/// What the resolves of a row come to.
#[derive(Clone, Copy, Debug, PartialEq, Eq)]
enum Walks {
    /// One for each subject: all others are hits.
    Once,
    /// Every resolve.
    Always,
    /// The router walks more often.
    More,
}

/// What a row asks of a cache of so many slots: each of the first subjects once, before the clock starts, and then some in turn.
#[derive(Clone, Copy)]
struct Asked<'a> {
    capacity: usize,
    first: &'a [String],
    then: &'a [String],
}

impl Asked<'_> {
    fn all(capacity: usize, subjects: &[String]) -> Asked<'_> {
        Asked {
            capacity,
            first: subjects,
            then: subjects,
        }
    }
}

/// One row of resolves.
fn resolves(name: &str, rounds: usize, yard: &Yard, asked: Asked, call: Calls) -> Walks {
    let Asked {
        capacity,
        first,
        then,
    } = asked;
    let ours = RefCell::new(Ours::new(&yard.table, capacity));
    let snapshot = yard.snapshot();
    let caches = [0, 1].map(|_| RefCell::new(ResolveCache::with_capacity(capacity)));
    let calls: [&dyn Fn(&String) -> u64; 3] = [
        &|text| ours.borrow_mut().resolve(call.ours, text),
        &|text| (call.theirs)(&mut caches[0].borrow_mut(), &snapshot, text),
        &|text| (call.known)(&mut caches[1].borrow_mut(), &snapshot, text),
    ];
    for call in calls {
        black_box(first.iter().map(call).sum::<u64>());
    }
    let passes = row(name, rounds, then, &calls);
    let walks = [ours.borrow().walks(), caches[0].borrow().walk_count()];
    let once = first.len() as u64;
    match walks {
        [ours, theirs] if ours > theirs => Walks::More,
        _ if walks == [once; 2] => Walks::Once,
        _ if walks == [once + (then.len() * passes) as u64; 2] => Walks::Always,
        _ => panic!("{name}: {walks:?} walks of {once} subjects"),
    }
}

/// So many subjects that differ in five digits, with an end behind these.
fn alike(count: usize, end: &str) -> Vec<String> {
    (0..count)
        .map(|number| format!("yard.north.vehicle.{number:05}.{end}"))
        .collect()
}

/// So many subjects of long names.
fn long(count: usize) -> Vec<String> {
    let short = alike(1, "")[0].len();
    alike(count, &"Triebwagen-".repeat(LONG)[..LONG - short])
}

/// Hits with few and many subjects held, misses in a small and in the largest cache, and verdicts on hits.
pub fn rows(rounds: usize, yard: &Yard, subjects: &[String], many: &[String]) {
    let held_by = |name: &str, asked: Asked, call| {
        let walks = resolves(name, rounds, yard, asked, call);
        assert_eq!(walks, Walks::Once, "all but the first are hits");
    };
    let held = |name: &str, subjects: &[String]| {
        held_by(name, Asked::all(MAX_CAPACITY, subjects), LISTS);
    };
    let missed = |name: &str, capacity, subjects: &[String]| {
        let walks = resolves(name, rounds, yard, Asked::all(capacity, subjects), LISTS);
        assert_eq!(walks, Walks::Always, "no resolve is a hit");
    };
    let (few, most) = (&subjects[..FEW], &many[..MAX_CAPACITY]);
    let one_mark = &one_mark::of_one_length()[..ALIKE];
    let last = Asked {
        then: &most[MAX_CAPACITY - 1..],
        ..Asked::all(MAX_CAPACITY, most)
    };
    let end = "position";
    held("resolve, 40 subjects held", few);
    held("resolve, 500 subjects held", subjects);
    held(
        "resolve, 500 subjects of one length held",
        &alike(ALIKE, end),
    );
    held("resolve, 500 of one length and one mark held", one_mark);
    held("resolve, 1,024 subjects held", most);
    let name = "resolve, 1,024 subjects of one length held";
    held(name, &alike(MAX_CAPACITY, end));
    let name = "resolve, 1,024 subjects of 200 bytes held";
    held(name, &long(MAX_CAPACITY));
    held_by("resolve, 1,024 held, the last slot each time", last, LISTS);
    missed("resolve, every one missed, 40 slots", FEW, subjects);
    missed("resolve, every one missed, 1,024 slots", MAX_CAPACITY, many);
    let few = Asked::all(MAX_CAPACITY, few);
    held_by("cached verdict, 40 subjects held", few, VERDICTS);
}

/// Resolves of a list that gives most subjects more than 16 targets: the router walks for each of these, the original keeps them.
pub fn long_lists(rounds: usize, yard: &Yard, subjects: &[String]) {
    let name = "resolve, lists over 16 targets";
    let few = Asked::all(MAX_CAPACITY, &subjects[..FEW]);
    let walks = resolves(name, rounds, yard, few, LISTS);
    assert_eq!(walks, Walks::More, "some lists have more than 16 targets");
}
