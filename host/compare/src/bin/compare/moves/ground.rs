//! A standing table on all sides, for moves that change nothing.
use super::call::call;
use super::subjects::Subjects;
use crate::pools::Pooled;
use crate::tables::fresh_words;
use crate::tally::Tally;
use compare::area::Lent;
use compare::lists::Line;
use compare::original::token_hash;
use compare::table::NODE_WORDS;
use oracle::sublist::SublistSnapshot;
use router::raw::SnapshotState;

pub struct Ground {
    pub snapshot: SnapshotState,
    pub area: Vec<u32>,
    /// How many words of the area are lent.
    pub lent_words: usize,
    /// The original's snapshot, if it has the same table.
    theirs: Option<SublistSnapshot<u32>>,
}

impl Ground {
    /// The table of a list, and some words more.
    pub fn built(tally: &mut Tally, lines: &[Line]) -> Ground {
        let pooled = Pooled::new(tally, lines);
        let mut ground = Ground::lent(&pooled.table);
        ground.area.extend(fresh_words(3));
        ground.lent_words = ground.area.len();
        ground.theirs = Some(SublistSnapshot::new(pooled.original(0)));
        ground
    }

    /// Any words. The original has no such table.
    pub fn lent(table: &Lent) -> Ground {
        let area = [&table.node_words[..], &table.target_words].concat();
        Ground {
            snapshot: SnapshotState {
                nodes: table.nodes,
                targets: table.targets,
                generation: 0,
                next: 1,
            },
            lent_words: area.len(),
            area,
            theirs: None,
        }
    }

    /// The same with something changed, so that the original has no such table.
    pub fn changed(&self, change: impl FnOnce(&mut Ground)) -> Ground {
        let mut ground = Ground {
            area: self.area.clone(),
            theirs: None,
            ..*self
        };
        change(&mut ground);
        ground
    }

    /// A word of a node.
    pub fn word(&mut self, node: usize, word: usize) -> &mut u32 {
        &mut self.area[node * NODE_WORDS + word]
    }

    /// The node at the end of a run of literal tokens.
    pub fn node(&self, run: &str) -> usize {
        let below = |parent: usize, token: &str| {
            let hash = token_hash(token.as_bytes());
            let is_child = |node: &usize| {
                let words = &self.area[node * NODE_WORDS..][..NODE_WORDS];
                words[12] as usize == parent && words[..2] == [hash as u32, (hash >> 32) as u32]
            };
            let child = (1..self.snapshot.nodes).find(is_child);
            child.expect("a line begins with this run")
        };
        run.split('.').fold(0, below)
    }

    /// One move with an output of so many places.
    pub fn call(&self, tally: &mut Tally, subjects: &Subjects, places: usize) {
        let area = &self.area[..self.lent_words];
        let asked = subjects.asked(self.snapshot, area);
        call(tally, asked, places, self.theirs.as_ref(), String::new);
    }

    /// Moves with an output that is one place too short, as long as all targets, and one place longer.
    pub fn calls(&self, tally: &mut Tally, subjects: &Subjects) {
        let count = subjects.count();
        for places in [count.saturating_sub(1), count, count + 1] {
            self.call(tally, subjects, places);
        }
    }
}
