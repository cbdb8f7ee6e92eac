//! The nodes of a table, read from its words as docs/LAYOUT.md describes them.
use router::{Table, NODE_WORDS};

/// Words of a node.
const FIRST_LITERAL: usize = 2;
const STAR: usize = 3;
const EXACT: usize = 4;
const TAIL: usize = 6;
const SIBLINGS: std::ops::Range<usize> = 8..12;

/// The root of every table.
pub const ROOT: usize = 0;

/// A table whose words are read. Numbers that point outside are read as none.
#[derive(Clone, Copy)]
pub struct Words<'t> {
    table: Table<'t>,
}

impl<'t> Words<'t> {
    pub const fn new(table: Table<'t>) -> Words<'t> {
        Words { table }
    }

    fn word(&self, node: usize, word: usize) -> usize {
        let words = self.table.node_words;
        words
            .get(node * NODE_WORDS + word)
            .map_or(0, |&word| word as usize)
    }

    /// The node that a word names; 0 is none.
    fn child(&self, node: usize, word: usize) -> Option<usize> {
        let child = self.word(node, word);
        (0 < child && child < self.table.nodes).then_some(child)
    }

    /// The hash of the node's token.
    pub fn hash(&self, node: usize) -> u64 {
        self.word(node, 0) as u64 | (self.word(node, 1) as u64) << 32
    }

    pub fn star(&self, node: usize) -> Option<usize> {
        self.child(node, STAR)
    }

    /// The literal children: the first, and behind each the siblings that four of its words name.
    pub fn literals(&self, node: usize) -> Vec<usize> {
        let mut found = Vec::new();
        let mut ahead: Vec<usize> = self.child(node, FIRST_LITERAL).into_iter().collect();
        while let Some(child) = ahead.pop() {
            if found.len() == self.table.nodes {
                break;
            }
            found.push(child);
            ahead.extend(SIBLINGS.filter_map(|word| self.child(child, word)));
        }
        found
    }

    /// The literal child of a hash: of each sibling looked at, two bits of the hash say where to go on.
    pub fn literal(&self, node: usize, hash: u64) -> Option<usize> {
        let mut child = self.child(node, FIRST_LITERAL)?;
        let mut way = hash;
        for _ in 0..self.table.nodes {
            if self.hash(child) == hash {
                return Some(child);
            }
            child = self.child(child, SIBLINGS.start + (way % 4) as usize)?;
            way /= 4;
        }
        None
    }

    /// How far patterns go along with a subject, `>` aside: for each of its first tokens, whether `*` stands for it. Names go before `*`.
    pub fn furthest(&self, subject: &[u8]) -> Vec<bool> {
        let mut front = vec![(ROOT, Vec::new())];
        for token in router::tokens(subject) {
            let hash = router::token_hash(token);
            let mut next = Vec::new();
            for (node, stars) in &front {
                let children = [self.literal(*node, hash), self.star(*node)];
                for (child, star) in children.into_iter().zip([false, true]) {
                    next.extend(child.map(|child| (child, [stars.as_slice(), &[star]].concat())));
                }
            }
            if next.is_empty() {
                break;
            }
            front = next;
        }
        front
            .into_iter()
            .next()
            .map_or(Vec::new(), |(_, stars)| stars)
    }

    fn targets(&self, node: usize, word: usize) -> &'t [u32] {
        let start = self.word(node, word);
        let end = start.saturating_add(self.word(node, word + 1));
        self.table.target_words.get(start..end).unwrap_or(&[])
    }

    /// The targets of the patterns that end at the node.
    pub fn exact(&self, node: usize) -> &'t [u32] {
        self.targets(node, EXACT)
    }

    /// The targets of the patterns that go on from the node with `>`.
    pub fn tail(&self, node: usize) -> &'t [u32] {
        self.targets(node, TAIL)
    }
}
