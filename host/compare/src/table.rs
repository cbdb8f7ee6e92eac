//! A list of patterns, and the table built from it, in memory that Rust owns and lends to the calls.
use router::raw::{self, Answer};

/// The numbers that an entry takes.
pub const ENTRY_NUMBERS: usize = 3;

/// The words that a node takes.
pub const NODE_WORDS: usize = 16;

/// The most entries that a list may have.
pub const MAX_ENTRIES: usize = 2048;

/// The most nodes that a frontier may hold, and the most that a table's worst case may be.
pub const MAX_FRONTIER: usize = 1024;

/// Patterns with their targets, in the order of insertion.
pub struct List {
    words: Vec<usize>,
    store: Vec<u8>,
    entries: usize,
    used: usize,
}

impl List {
    /// An empty list with room for so many entries and so many bytes of text.
    pub fn with_room(entries: usize, bytes: usize) -> List {
        List {
            words: vec![0; entries * ENTRY_NUMBERS],
            store: vec![0; bytes],
            entries: 0,
            used: 0,
        }
    }

    /// A pattern joins the list, unless it is refused.
    pub fn insert(&mut self, pattern: &[u8], target: u32) -> Answer {
        let answer = raw::insert(
            self.entries,
            self.used,
            &mut self.words,
            &mut self.store,
            pattern,
            target,
        );
        if answer.accepted() {
            self.entries = answer.first as usize;
            self.used = answer.second as usize;
        }
        answer
    }

    pub fn entries(&self) -> usize {
        self.entries
    }

    /// The numbers of the entries.
    pub fn words(&self) -> &[usize] {
        &self.words[..self.entries * ENTRY_NUMBERS]
    }

    /// The texts of the entries.
    pub fn store(&self) -> &[u8] {
        &self.store[..self.used]
    }

    /// No table of this list has more nodes: the root, and one for each token.
    pub fn most_nodes(&self) -> usize {
        let dots = self.store().iter().filter(|&&byte| byte == b'.').count();
        1 + self.entries + dots
    }
}

/// A table: its counts, and its words.
pub struct Table {
    pub nodes: usize,
    pub worst_case: usize,
    pub generation: u64,
    node_words: Vec<u32>,
    target_words: Vec<u32>,
}

impl Table {
    /// The table of a list, or why there is none.
    pub fn build(list: &List, generation: u64) -> Result<Table, Answer> {
        let mut node_words = vec![0; list.most_nodes() * NODE_WORDS];
        let mut target_words = vec![0; list.entries()];
        let answer = raw::build(
            list.words(),
            list.store(),
            &mut node_words,
            &mut target_words,
            generation,
        );
        if !answer.accepted() {
            return Err(answer);
        }
        let nodes = answer.first as usize;
        node_words.truncate(nodes * NODE_WORDS);
        node_words.shrink_to_fit();
        Ok(Table {
            nodes,
            worst_case: answer.second as usize,
            generation: answer.third,
            node_words,
            target_words,
        })
    }

    pub fn node_words(&self) -> &[u32] {
        &self.node_words
    }

    pub fn target_words(&self) -> &[u32] {
        &self.target_words
    }

    /// The targets that a subject matches, written to the first places of `out`: their number and the peak, or the refusal.
    pub fn match_subject(&self, subject: &[u8], out: &mut [u32]) -> Answer {
        raw::match_table(
            self.nodes,
            self.target_words.len(),
            &self.node_words,
            &self.target_words,
            subject,
            out,
        )
    }
}
