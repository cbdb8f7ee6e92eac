//! A yard's list on both sides, and the router's snapshot and cache of it.
use crate::tables::{built, inserted, their_list, their_table};
use compare::lists::Line;
use compare::model_cache::{state_after, Slots};
use compare::table::Table;
use oracle::subject::Subject;
use oracle::sublist::{Sublist, SublistBuilder, SublistSnapshot};
use router::limits::{kept_words, key_bytes, stamp_numbers, table_words};
use router::raw::{self, CacheState, Resolve, SnapshotState};

/// A yard's list on both sides.
pub struct Yard {
    pub count: usize,
    pub table: Table,
    builder: SublistBuilder<u32>,
}

impl Yard {
    pub fn new(lines: &[Line]) -> Yard {
        Yard {
            count: lines.len(),
            table: built(&inserted(lines)),
            builder: their_list(lines),
        }
    }

    /// The original's table.
    pub fn original(&self) -> Sublist<u32> {
        their_table(&self.builder)
    }

    /// The original's table as it stands.
    pub fn snapshot(&self) -> SublistSnapshot<u32> {
        SublistSnapshot::new(self.original())
    }
}

/// Texts that are known to be UTF-8.
pub fn texts(texts: Vec<Vec<u8>>) -> Vec<String> {
    texts
        .into_iter()
        .map(|bytes| String::from_utf8(bytes).expect("a yard's text is UTF-8"))
        .collect()
}

/// A subject from what is known to be UTF-8.
pub fn known(text: &str) -> Subject<'_> {
    Subject::parse_literal(text).expect("a yard's subject is accepted")
}

/// A router's snapshot and cache with their areas.
pub struct Ours {
    pub snapshot: SnapshotState,
    pub area: Vec<u32>,
    cache: CacheState,
    slots: Slots,
    out: Vec<u32>,
}

impl Ours {
    pub fn new(table: &Table, capacity: usize) -> Ours {
        let targets = table.target_words();
        let mut area = vec![0; table_words(table.nodes, targets.len())];
        let words = table.node_words();
        let made = raw::snapshot_new(table.nodes, targets.len(), 0, words, targets, &mut area);
        assert_eq!(made.number, 0);
        Ours {
            snapshot: SnapshotState {
                nodes: table.nodes,
                targets: targets.len(),
                generation: 0,
                next: 1,
            },
            area,
            cache: CacheState::fresh(capacity),
            slots: Slots {
                stamps: vec![0; stamp_numbers(capacity)],
                keys: vec![0; key_bytes(capacity)],
                kept: vec![0; kept_words(capacity)],
            },
            out: vec![0; targets.len()],
        }
    }

    /// How many resolves walked the table.
    pub fn walks(&self) -> u64 {
        self.cache.walks
    }

    pub fn matched(&mut self, subject: &str) -> u64 {
        let subject = subject.as_bytes();
        raw::snapshot_match(self.snapshot, &self.area, subject, &mut self.out).first
    }

    pub fn verdict(&mut self, subject: &str) -> raw::Verdict {
        let subject = subject.as_bytes();
        raw::resolve_single_home(self.snapshot, &self.area, subject, &mut self.out)
    }

    pub fn resolve(&mut self, call: Resolve, subject: &str) -> u64 {
        let slots = &mut self.slots;
        let resolved = call(
            self.cache,
            &mut slots.stamps,
            &mut slots.keys,
            &mut slots.kept,
            self.snapshot,
            &self.area,
            subject.as_bytes(),
            &mut self.out,
        );
        self.cache = state_after(&resolved);
        resolved.third
    }
}
