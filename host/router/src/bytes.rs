//! The calls on areas of bytes, lowest byte of a number first, for a host that keeps its areas so. Whole words count; places and lengths count words.
//! The areas of one call may have 65,536 bytes together, the keys of a cache not counted; a call lent more is refused as 99, before any other check.
use crate::answers::{accepted, cache_after, part, resolved_values, size};
use crate::raw::{self, CacheState, SnapshotState};
use crate::Refusal;

/// The bytes of a word.
pub const WORD_BYTES: usize = 4;

/// Targets as bytes, four each.
#[derive(Clone, Copy, Debug, PartialEq, Eq)]
pub struct Targets<'r> {
    words: &'r [[u8; WORD_BYTES]],
}

impl<'r> Targets<'r> {
    /// So many words from one on.
    fn part(bytes: &'r [u8], start: u64, length: u64) -> Targets<'r> {
        let (words, _) = bytes.as_chunks();
        Targets {
            words: part(words, start, length),
        }
    }

    /// How many targets they are.
    pub const fn len(&self) -> usize {
        self.words.len()
    }

    /// Whether there is none.
    pub const fn is_empty(&self) -> bool {
        self.words.is_empty()
    }

    /// Each target in order.
    pub fn iter(&self) -> impl Iterator<Item = u32> + 'r {
        self.words.iter().map(|word| u32::from_le_bytes(*word))
    }
}

/// A table whose areas are bytes.
#[derive(Clone, Copy, Debug)]
pub struct TableBytes<'a> {
    pub nodes: usize,
    pub targets: usize,
    pub node_bytes: &'a [u8],
    pub target_bytes: &'a [u8],
}

impl TableBytes<'_> {
    /// The targets that a subject matches, in the first bytes of `out`, and the peak; or 1 to 9, 19, 21, 99.
    pub fn match_into<'o>(
        &self,
        subject: &[u8],
        out: &'o mut [u8],
    ) -> Result<(Targets<'o>, usize), Refusal> {
        let answer = raw::match_bytes(
            self.nodes,
            self.targets,
            self.node_bytes,
            self.target_bytes,
            subject,
            out,
        );
        let [length, peak, _] = accepted(answer)?;
        Ok((Targets::part(out, 0, length), size(peak)))
    }
}

/// A snapshot whose area is bytes.
#[derive(Clone, Copy, Debug)]
pub struct SnapshotBytes<'a> {
    pub state: SnapshotState,
    pub area: &'a [u8],
}

/// A cache whose areas are bytes.
#[derive(Debug)]
pub struct ResolveCacheBytes<'a> {
    pub state: CacheState,
    /// Eight bytes a slot.
    pub stamps: &'a mut [u8],
    /// 260 bytes a slot, as those of a [`crate::ResolveCache`].
    pub keys: &'a mut [u8],
    /// 64 bytes a slot, four for each target.
    pub kept: &'a mut [u8],
}

impl<'a> ResolveCacheBytes<'a> {
    /// A fresh cache of so many slots, 0 counting as 1. Its areas are measured when it resolves.
    pub fn with_capacity(
        capacity: usize,
        stamps: &'a mut [u8],
        keys: &'a mut [u8],
        kept: &'a mut [u8],
    ) -> ResolveCacheBytes<'a> {
        ResolveCacheBytes {
            state: CacheState::fresh(capacity),
            stamps,
            keys,
            kept,
        }
    }

    /// The cache is emptied; its generation and its walks remain.
    pub fn clear(&mut self) {
        self.state = raw::cache_clear(self.state);
    }

    /// The targets of a subject and whether the cache had them; or 1 to 9, 17 to 19, 21, 99.
    pub fn resolve<'r>(
        &'r mut self,
        snapshot: &SnapshotBytes<'_>,
        subject: &[u8],
        out: &'r mut [u8],
    ) -> Result<(Targets<'r>, bool), Refusal> {
        let resolved = raw::resolve_bytes(
            self.state,
            self.stamps,
            self.keys,
            self.kept,
            snapshot.state,
            snapshot.area,
            subject,
            out,
        );
        self.state = cache_after(&resolved);
        let [lies, start, length] = resolved_values(&resolved)?;
        Ok(match lies {
            0 => (Targets::part(self.kept, start, length), true),
            _ => (Targets::part(out, start, length), false),
        })
    }
}

#[cfg(test)]
mod tests {
    use super::*;

    #[test]
    fn a_table_of_bytes() {
        let table = TableBytes {
            nodes: 1,
            targets: 1,
            node_bytes: &{
                let mut root = [0; 64];
                root[4 * 7] = 1;
                root
            },
            target_bytes: &[1, 2, 0, 0, 9],
        };
        let mut out = [7; 9];
        let found = table.match_into(b"a", &mut out);
        let Ok((targets, peak)) = found else {
            panic!("{found:?}");
        };
        assert!(targets.iter().eq([0x201]) && !targets.is_empty());
        assert_eq!((targets.len(), peak), (1, 1));
        let mut long = [0; 65536];
        assert_eq!(table.match_into(b"a", &mut long), Err(Refusal::CopyFull));
    }
}
