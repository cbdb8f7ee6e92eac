//! What a list of lines means, written from the scope document's words, apart from the router and from the original: nodes, worst case, list and peak.
//! The original does not report worst cases that it accepts, nor peaks.
use crate::lists::Line;
use crate::original::token_hash;
use std::collections::{HashMap, HashSet};

/// A token of a pattern but `>`, as the table tells it apart.
#[derive(Clone, Copy, PartialEq, Eq, Hash)]
pub enum Key {
    Literal(u64),
    Star,
}

/// A pattern's tokens but `>`, and whether `>` follows.
pub fn keys(pattern: &[u8]) -> (Vec<Key>, bool) {
    let mut keys = Vec::new();
    for token in pattern.split(|&byte| byte == b'.') {
        match token {
            b">" => return (keys, true),
            b"*" => keys.push(Key::Star),
            _ => keys.push(Key::Literal(token_hash(token))),
        }
    }
    (keys, false)
}

fn hashes(subject: &[u8]) -> impl Iterator<Item = u64> + '_ {
    subject.split(|&byte| byte == b'.').map(token_hash)
}

#[derive(Default)]
struct Node {
    literals: HashMap<u64, usize>,
    star: Option<usize>,
    exact: Vec<u32>,
    tails: Vec<u32>,
}

/// The tree of a list. Node 0 is the root, and a child comes behind its parent.
pub struct Tree {
    nodes: Vec<Node>,
}

impl Tree {
    pub fn new(lines: &[Line]) -> Tree {
        let mut tree = Tree {
            nodes: vec![Node::default()],
        };
        for (pattern, target) in lines {
            let (keys, tail) = keys(pattern);
            let end = keys.iter().fold(0, |node, &key| tree.child(node, key));
            let node = &mut tree.nodes[end];
            if tail {
                &mut node.tails
            } else {
                &mut node.exact
            }
            .push(*target);
        }
        tree
    }

    /// The child of a node, made where it is missing.
    fn child(&mut self, node: usize, key: Key) -> usize {
        let next = self.nodes.len();
        let parent = &mut self.nodes[node];
        let child = match key {
            Key::Star => *parent.star.get_or_insert(next),
            Key::Literal(hash) => *parent.literals.entry(hash).or_insert(next),
        };
        if child == next {
            self.nodes.push(Node::default());
        }
        child
    }

    pub fn node_count(&self) -> usize {
        self.nodes.len()
    }

    /// The worst case of the root: of each node S + L, or 1 if that is 0.
    pub fn worst_case(&self) -> usize {
        let mut worst = vec![0; self.nodes.len()];
        for (index, node) in self.nodes.iter().enumerate().rev() {
            let star = node.star.map_or(0, |child| worst[child]);
            let literal = node.literals.values().map(|&child| worst[child]).max();
            worst[index] = (star + literal.unwrap_or(0)).max(1);
        }
        worst[0]
    }

    /// The walk: the list goes into `out`, the largest frontier is the answer.
    pub fn walk(&self, subject: &[u8], out: &mut Vec<u32>) -> usize {
        out.clear();
        let mut frontier = vec![0];
        let mut peak = 1;
        for hash in hashes(subject) {
            let mut next = Vec::new();
            for &index in &frontier {
                let node = &self.nodes[index];
                out.extend_from_slice(&node.tails);
                next.extend(node.literals.get(&hash));
                next.extend(node.star);
            }
            peak = peak.max(next.len());
            frontier = next;
        }
        for &index in &frontier {
            out.extend_from_slice(&self.nodes[index].exact);
        }
        peak
    }
}

/// Whether the subject's first tokens are such as the keys say.
fn begins(keys: &[Key], subject: &[u64]) -> bool {
    let fits = |(key, hash): (&Key, &u64)| *key == Key::Star || *key == Key::Literal(*hash);
    keys.len() <= subject.len() && keys.iter().zip(subject).all(fits)
}

/// The list that a subject is due, without a tree: the lines that match, those ending in `>` first, the earlier `>` first, then the others;
/// at the first token where two differ the literal before `*`; equals as inserted.
pub fn due(lines: &[Line], subject: &[u8]) -> Vec<u32> {
    let subject: Vec<u64> = hashes(subject).collect();
    let mut found = Vec::new();
    for (pattern, target) in lines {
        let (keys, tail) = keys(pattern);
        let length_fits = if tail {
            keys.len() < subject.len()
        } else {
            keys.len() == subject.len()
        };
        if length_fits && begins(&keys, &subject) {
            let stars: Vec<bool> = keys.iter().map(|&key| key == Key::Star).collect();
            found.push(((!tail, keys.len(), stars), *target));
        }
    }
    found.sort_by(|a, b| a.0.cmp(&b.0));
    found.into_iter().map(|(_, target)| target).collect()
}

/// The peak, without a tree: the largest number of distinct runs of one length that match the subject's first tokens.
pub fn peak(lines: &[Line], subject: &[u8]) -> usize {
    let subject: Vec<u64> = hashes(subject).collect();
    let mut runs = HashSet::new();
    for (pattern, _) in lines {
        let (keys, _) = keys(pattern);
        runs.extend((1..=keys.len()).map(|length| keys[..length].to_vec()));
    }
    let matching = |length| {
        let here = |run: &&Vec<Key>| run.len() == length && begins(run, &subject);
        runs.iter().filter(here).count()
    };
    (1..=subject.len()).map(matching).max().unwrap_or(0).max(1)
}
