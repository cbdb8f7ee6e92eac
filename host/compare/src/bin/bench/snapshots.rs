//! The rows on a snapshot with a yard's table.
use crate::row::{lines, nanoseconds, print, row, ORIGINAL};
use crate::yard::{known, Ours, Yard};
use compare::original_calls;
use oracle::binding;
use router::raw;
use std::cell::RefCell;
use std::hint::black_box;
use std::time::{Duration, Instant};

/// Stores in a round.
const STORES: usize = 8;

fn matches(rounds: usize, yard: &Yard, subjects: &[String]) {
    let ours = RefCell::new(Ours::new(&yard.table, 1));
    let snapshot = yard.snapshot();
    let list = RefCell::new(Vec::new());
    let theirs = |text: &String| {
        let list = &mut list.borrow_mut();
        original_calls::match_into(&snapshot, text.as_bytes(), list).first
    };
    row(
        &format!("match through the snapshot, {}", lines(yard.count)),
        rounds,
        subjects,
        &[&|text| ours.borrow_mut().matched(text), &theirs, &|text| {
            snapshot.match_into(&known(text), &mut list.borrow_mut())
        }],
    );
}

/// The row on verdicts, with the name of the yard's list.
pub fn verdicts(rounds: usize, name: &str, yard: &Yard, subjects: &[String]) {
    let ours = RefCell::new(Ours::new(&yard.table, 1));
    let snapshot = yard.snapshot();
    row(
        &format!("verdict without a cache, {name}"),
        rounds,
        subjects,
        &[
            &|text| ours.borrow_mut().verdict(text).kind,
            &|text| original_calls::resolve_single_home(&snapshot, text.as_bytes()).first,
            &|text| {
                let verdict = binding::resolve_single_home(&snapshot, &known(text));
                original_calls::verdict(verdict).first
            },
        ],
    );
}

pub fn rows(rounds: usize, yard: &Yard, subjects: &[String]) {
    matches(rounds, yard, subjects);
    verdicts(rounds, &lines(yard.count), yard, subjects);
}

fn store_ours(yard: &Yard, ours: &mut Ours) -> u64 {
    let table = &yard.table;
    raw::store(
        ours.snapshot,
        table.nodes,
        table.target_words().len(),
        0,
        table.node_words(),
        table.target_words(),
        &mut ours.area,
    )
    .stamped
}

/// A store of the whole table. The original's tables are built before the clock starts; it drops the table that stood before.
pub fn store(rounds: usize, yard: &Yard) {
    let mut ours = Ours::new(&yard.table, 1);
    let snapshot = yard.snapshot();
    let mut fastest = [Duration::MAX; 2];
    for _ in 0..rounds {
        let began = Instant::now();
        for _ in 0..STORES {
            black_box(store_ours(yard, &mut ours));
        }
        let middle = began.elapsed();
        let tables: Vec<_> = (0..STORES).map(|_| yard.original()).collect();
        let began = Instant::now();
        for table in tables {
            black_box(snapshot.store(table));
        }
        for (fastest, took) in fastest.iter_mut().zip([middle, began.elapsed()]) {
            *fastest = took.min(*fastest);
        }
    }
    print(
        ORIGINAL,
        &format!("store of the table of {}", lines(yard.count)),
        &fastest.map(|round| nanoseconds(round, STORES)),
    );
}
