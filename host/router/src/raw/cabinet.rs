//! The calls on what a cabinet keeps: the snapshot in which a table stands, and a cache; and verdicts.
use super::calls::calls;
use super::{
    Answer, CacheState, MadeCache, MadeSnapshot, Move, Resolved, SnapshotState, Stored, Verdict,
};

/// [`resolve`], or [`resolve_single_home_cached`].
pub type Resolve = fn(
    CacheState,
    &mut [u64],
    &mut [u8],
    &mut [u32],
    SnapshotState,
    &[u32],
    &[u8],
    &mut [u32],
) -> Resolved;

calls! {
    /// A snapshot with a copy of a first table in its area, stamped 0; the first store will stamp 1. The table's own generation is not used. Or 19, 20.
    pub fn snapshot_new(
        nodes: usize, targets: usize, generation: u64, node_words: &[u32], target_words: &[u32],
        area: &mut [u32],
    ) -> MadeSnapshot = router_snapshot_new;

    /// A snapshot whose first table has no entries, stamped 0. Or 20.
    pub fn snapshot_empty(area: &mut [u32]) -> MadeSnapshot = router_snapshot_empty;

    /// A table is copied into the snapshot's area, stamped with the counter, and stands from then on. Its own generation is not used. Or 19, 20.
    pub fn store(
        snapshot: SnapshotState,
        nodes: usize, targets: usize, generation: u64, node_words: &[u32], target_words: &[u32],
        area: &mut [u32],
    ) -> Stored = router_store;

    /// The targets that a subject matches in the standing table, written to `out`: their number, the peak and the generation, or 1 to 9, 19, 21.
    pub fn snapshot_match(
        snapshot: SnapshotState, area: &[u32], subject: &[u8], out: &mut [u32],
    ) -> Answer = router_snapshot_match;

    /// A fresh cache of so many slots, 0 counting as 1, over areas of a stamp, 260 bytes and 16 targets a slot. Or 17.
    pub fn cache_new(
        capacity: usize, stamps: &[u64], keys: &[u8], kept: &[u32],
    ) -> MadeCache = router_cache_new;

    /// The cache emptied, its tick 0; generation and walks remain.
    pub fn cache_clear(cache: CacheState) -> CacheState = router_cache_clear;

    /// The targets of a subject through a cache: where the list lies (0 in `kept`, 1 in `out`), its first place and its length.
    /// Or 1 to 9, 17 to 19, 21.
    pub fn resolve(
        cache: CacheState, stamps: &mut [u64], keys: &mut [u8], kept: &mut [u32],
        snapshot: SnapshotState, area: &[u32], subject: &[u8], out: &mut [u32],
    ) -> Resolved = router_resolve;

    /// The same on areas of bytes, lowest byte of a number first: 8 bytes a stamp, 4 a word of `kept`, `area` and `out`; `keys` are the same. Places and length count words.
    /// 99 if `stamps`, `kept`, `area` and `out` are together more than 65,536 bytes.
    pub fn resolve_bytes(
        cache: CacheState, stamps: &mut [u8], keys: &mut [u8], kept: &mut [u8],
        snapshot: SnapshotState, area: &[u8], subject: &[u8], out: &mut [u8],
    ) -> Resolved = router_resolve_bytes;

    /// The verdict on a list of targets: 0, its kind and its value, as [`Verdict`] has them.
    pub fn single_home(list: &[u32]) -> Answer = router_single_home;

    /// The verdict on a subject by the standing table. The list is written to `out` as by a match. Or 1 to 9, 19, 21.
    pub fn resolve_single_home(
        snapshot: SnapshotState, area: &[u32], subject: &[u8], out: &mut [u32],
    ) -> Verdict = router_resolve_single_home;

    /// The verdict on a subject through a cache: kind, value and 0. Or the refusals of [`resolve`].
    pub fn resolve_single_home_cached(
        cache: CacheState, stamps: &mut [u64], keys: &mut [u8], kept: &mut [u32],
        snapshot: SnapshotState, area: &[u32], subject: &[u8], out: &mut [u32],
    ) -> Resolved = router_resolve_single_home_cached;

    /// Up to 64 subjects routed together by the standing table. `spans` has two numbers a subject, where it starts in `bytes` and how long it is; a number
    /// left over counts for none. If every subject is Routed its target is written to `out`, in the order of the subjects; else `out` is as it was.
    /// Or 22; 12 or 1 to 9 with the subject's place; 19; 21.
    pub fn whole_move(
        snapshot: SnapshotState, area: &[u32], bytes: &[u8], spans: &[usize], out: &mut [u32],
    ) -> Move = router_whole_move;
}
