//! The snapshot by its definitions, apart from the router: what each call answers, and the state and area that it leaves. States and areas may be any.
use crate::area::Words;
use crate::original;
use crate::table::NODE_WORDS;
use router::raw::{Answer, MadeSnapshot, SnapshotState, Stored};

/// An answer with its values.
pub fn answer(number: u64, values: &[usize]) -> Answer {
    let value = |index: usize| values.get(index).map_or(0, |&value| value as u64);
    Answer {
        number,
        first: value(0),
        second: value(1),
        third: value(2),
    }
}

/// 19 if the counts exceed their areas or there is no node, then 20 if the snapshot's area is shorter than the table.
fn refused(table: Words, area: &[u32]) -> Option<u64> {
    if !table.counts_fit() {
        return Some(19);
    }
    (area.len() < table.nodes * NODE_WORDS + table.targets).then_some(20)
}

/// Node words, then target words, to the front of the area.
fn copy(table: Words, area: &mut [u32]) {
    let (front, back) = area.split_at_mut(table.nodes * NODE_WORDS);
    front.copy_from_slice(&table.node_words[..front.len()]);
    back[..table.targets].copy_from_slice(&table.target_words[..table.targets]);
}

/// `new`: the first table is stamped 0, whatever generation build was given, and the counter starts at 1.
pub fn make(table: Words, area: &mut [u32]) -> MadeSnapshot {
    if let Some(number) = refused(table, area) {
        return MadeSnapshot {
            number,
            ..MadeSnapshot::default()
        };
    }
    copy(table, area);
    MadeSnapshot {
        number: 0,
        nodes: table.nodes as u64,
        targets: table.targets as u64,
        generation: 0,
        next: 1,
    }
}

/// A state by the numbers of an answer.
fn state(nodes: u64, targets: u64, generation: u64, next: u64) -> SnapshotState {
    SnapshotState {
        nodes: nodes as usize,
        targets: targets as usize,
        generation,
        next,
    }
}

/// The state that an accepted making returned.
pub fn state_made(made: MadeSnapshot) -> SnapshotState {
    state(made.nodes, made.targets, made.generation, made.next)
}

/// The state that a store returned.
pub fn state_after(stored: Stored) -> SnapshotState {
    let (nodes, targets) = (stored.nodes, stored.targets);
    state(nodes, targets, stored.generation, stored.next)
}

/// `empty`: the root alone.
pub fn make_empty(area: &mut [u32]) -> MadeSnapshot {
    let root = Words {
        nodes: 1,
        targets: 0,
        node_words: &[0; NODE_WORDS],
        target_words: &[],
    };
    make(root, area)
}

fn stored(number: u64, stamped: u64, state: SnapshotState) -> Stored {
    Stored {
        number,
        stamped,
        nodes: state.nodes as u64,
        targets: state.targets as u64,
        generation: state.generation,
        next: state.next,
    }
}

/// `store`: the table is stamped with the counter, which goes up by one, modulo 2^64.
pub fn store(state: SnapshotState, table: Words, area: &mut [u32]) -> Stored {
    if let Some(number) = refused(table, area) {
        return stored(number, 0, state);
    }
    copy(table, area);
    let after = SnapshotState {
        nodes: table.nodes,
        targets: table.targets,
        generation: state.next,
        next: state.next.wrapping_add(1),
    };
    stored(0, state.next, after)
}

/// The standing table in the area, unless the counts say that there is none.
pub fn standing(state: SnapshotState, area: &[u32]) -> Option<Words<'_>> {
    let nodes = state.nodes.checked_mul(NODE_WORDS)?;
    let end = nodes.checked_add(state.targets)?;
    let words = area.get(..end).filter(|_| state.nodes > 0)?;
    let (node_words, target_words) = words.split_at(nodes);
    Some(Words {
        nodes: state.nodes,
        targets: state.targets,
        node_words,
        target_words,
    })
}

/// A match through the snapshot: length, peak and generation; or 1 to 9, 19, 21.
pub fn match_into(state: SnapshotState, area: &[u32], subject: &[u8], out: &mut [u32]) -> Answer {
    let parsed = original::parse_literal(subject);
    if !parsed.accepted() {
        return parsed;
    }
    let Some(Ok((list, peak))) = standing(state, area).map(|table| table.walk(subject)) else {
        return answer(19, &[]);
    };
    if list.len() > out.len() {
        return answer(21, &[list.len()]);
    }
    out[..list.len()].copy_from_slice(&list);
    Answer {
        third: state.generation,
        ..answer(0, &[list.len(), peak])
    }
}
