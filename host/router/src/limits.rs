//! Limits of the router, and the sizes of the areas that a program lends to it. docs/LAYOUT.md says what stands in them.

/// The most bytes that a text may have.
pub const MAX_TEXT: usize = 4096;

/// The bytes of the longest text that the load maker makes: six letters or wildcards, and five dots. An output of so many is never short for it.
pub const MADE_TEXT: usize = 11;

/// The most tokens that a text may have.
pub const MAX_TOKENS: usize = 32;

/// The most entries that a list may have.
pub const MAX_ENTRIES: usize = 2048;

/// The numbers that an entry takes in a list: start, length, target.
pub const ENTRY_NUMBERS: usize = 3;

/// The words that a node takes in a table.
pub const NODE_WORDS: usize = 16;

/// The most nodes that a table can need: the root, and one for each token of each entry.
pub const MAX_NODES: usize = MAX_ENTRIES * MAX_TOKENS + 1;

/// The most nodes that a walk may stand at, and so the most that a table's worst case may be.
pub const MAX_FRONTIER: usize = 1024;

/// The most subjects that a whole move may have. An output of so many is never short for it.
pub const MAX_MOVE: usize = 64;

/// What a slot of a cache takes beside its stamp: a byte in each of so many lists, the bytes of its key, and the words of its targets.
pub const SLOT_LISTS: usize = 4;
pub const KEY_BYTES: usize = 256;
pub const SLOT_TARGETS: usize = 16;

/// The most slots that a cache may have, and those it has where none are asked for.
pub const MAX_CAPACITY: usize = 1024;
pub const DEFAULT_CAPACITY: usize = 1024;

/// The most bytes that the areas of a call on bytes may have together.
pub const COPY_BYTES: usize = 65536;

/// The numbers of a list with room for so many entries.
pub const fn list_numbers(entries: usize) -> usize {
    entries.saturating_mul(ENTRY_NUMBERS)
}

/// The words of so many nodes.
pub const fn node_words(nodes: usize) -> usize {
    nodes.saturating_mul(NODE_WORDS)
}

/// The words of a table of so many nodes and targets, which are those of a snapshot's area too.
pub const fn table_words(nodes: usize, targets: usize) -> usize {
    node_words(nodes).saturating_add(targets)
}

/// The stamps of so many slots, one each.
pub const fn stamp_numbers(slots: usize) -> usize {
    slots
}

/// The bytes of the keys of so many slots, and of the lists before them.
pub const fn key_bytes(slots: usize) -> usize {
    slots.saturating_mul(SLOT_LISTS + KEY_BYTES)
}

/// The words of the targets that so many slots keep.
pub const fn kept_words(slots: usize) -> usize {
    slots.saturating_mul(SLOT_TARGETS)
}

/// The bytes of a cache of so many slots in all: stamps of 8 bytes, keys, and 4 bytes a target.
pub const fn cache_bytes(slots: usize) -> usize {
    slots.saturating_mul(8 + SLOT_LISTS + KEY_BYTES + 4 * SLOT_TARGETS)
}

#[cfg(test)]
mod tests {
    use super::*;

    #[test]
    fn sizes() {
        assert_eq!((MAX_NODES, MADE_TEXT), (65537, 6 + 5));
        assert_eq!(table_words(5, 5), 85);
        assert_eq!(
            (stamp_numbers(2), key_bytes(2), kept_words(2)),
            (2, 520, 32)
        );
        assert_eq!(cache_bytes(1), 332);
        assert_eq!(cache_bytes(MAX_CAPACITY), 339_968);
        assert_eq!(table_words(usize::MAX, 1), usize::MAX);
    }
}
