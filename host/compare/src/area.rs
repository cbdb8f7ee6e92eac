//! The walk over the words of a table as docs/LAYOUT.md describes them, for words that no build made too. It is written apart from the router.
use crate::original::token_hash;
use crate::table::{MAX_FRONTIER, NODE_WORDS};

/// A table as it is lent: counts, and words that may be any.
#[derive(Clone, Debug)]
pub struct Lent {
    pub nodes: usize,
    pub targets: usize,
    pub node_words: Vec<u32>,
    pub target_words: Vec<u32>,
}

/// The same where the words lie elsewhere.
#[derive(Clone, Copy, Debug)]
pub struct Words<'a> {
    pub nodes: usize,
    pub targets: usize,
    pub node_words: &'a [u32],
    pub target_words: &'a [u32],
}

/// A number that points outside, a chain that does not end, or a frontier that is too large: refusal 19.
#[derive(Debug, PartialEq, Eq)]
pub struct Damaged;

impl Lent {
    pub fn words(&self) -> Words<'_> {
        Words {
            nodes: self.nodes,
            targets: self.targets,
            node_words: &self.node_words,
            target_words: &self.target_words,
        }
    }

    /// The list and the peak of an accepted subject.
    pub fn walk(&self, subject: &[u8]) -> Result<(Vec<u32>, usize), Damaged> {
        self.words().walk(subject)
    }
}

impl Words<'_> {
    /// Whether there is a node, and neither count exceeds its area.
    pub fn counts_fit(&self) -> bool {
        0 < self.nodes
            && self.nodes <= self.node_words.len() / NODE_WORDS
            && self.targets <= self.target_words.len()
    }

    fn word(&self, node: usize, word: usize) -> usize {
        self.node_words[node * NODE_WORDS + word] as usize
    }

    /// A number of a node in some word: none if it is 0.
    fn node(&self, number: usize) -> Result<Option<usize>, Damaged> {
        match number {
            0 => Ok(None),
            _ if number < self.nodes => Ok(Some(number)),
            _ => Err(Damaged),
        }
    }

    fn has_hash(&self, node: usize, hash: u64) -> bool {
        self.word(node, 0) as u64 == hash & 0xffff_ffff && self.word(node, 1) as u64 == hash >> 32
    }

    fn literal_child(&self, parent: usize, hash: u64) -> Result<Option<usize>, Damaged> {
        let mut next = self.word(parent, 2);
        let mut way = hash;
        for _ in 0..self.nodes {
            let Some(node) = self.node(next)? else {
                return Ok(None);
            };
            if self.has_hash(node, hash) {
                return Ok(Some(node));
            }
            next = self.word(node, 8 + (way % 4) as usize);
            way /= 4;
        }
        if next == 0 {
            Ok(None)
        } else {
            Err(Damaged)
        }
    }

    /// The targets that two words of a node say, start and count.
    fn collect(&self, node: usize, word: usize, out: &mut Vec<u32>) -> Result<(), Damaged> {
        let start = self.word(node, word);
        let end = start + self.word(node, word + 1);
        if end > self.targets {
            return Err(Damaged);
        }
        out.extend_from_slice(&self.target_words[start..end]);
        Ok(())
    }

    /// The list and the peak of an accepted subject.
    pub fn walk(&self, subject: &[u8]) -> Result<(Vec<u32>, usize), Damaged> {
        if !self.counts_fit() {
            return Err(Damaged);
        }
        let mut list = Vec::new();
        let mut frontier = vec![0];
        let mut peak = 1;
        for token in subject.split(|&byte| byte == b'.') {
            let hash = token_hash(token);
            let mut next = Vec::new();
            for &node in &frontier {
                self.collect(node, 6, &mut list)?;
                let children = [
                    self.literal_child(node, hash)?,
                    self.node(self.word(node, 3))?,
                ];
                for child in children.into_iter().flatten() {
                    if !next.contains(&child) {
                        next.push(child);
                    }
                }
                if next.len() > MAX_FRONTIER {
                    return Err(Damaged);
                }
            }
            peak = peak.max(next.len());
            frontier = next;
        }
        for &node in &frontier {
            self.collect(node, 4, &mut list)?;
        }
        Ok((list, peak))
    }
}
