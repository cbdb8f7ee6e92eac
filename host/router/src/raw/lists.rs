//! The calls on lists of entries. An entry is three numbers: start, length, target.
use super::calls::calls;
use super::Answer;

calls! {
    /// A pattern and its target join a list of `entries` entries, whose texts take `used` bytes: both counts afterwards, or 1 to 11.
    pub fn insert(
        entries: usize, used: usize, numbers: &mut [usize], store: &mut [u8],
        pattern: &[u8], target: u32,
    ) -> Answer = router_insert;

    /// The table of a list of entries, all of it: node count, worst case and generation, or 10, 12 to 16.
    pub fn build(
        numbers: &[usize], store: &[u8],
        node_words: &mut [u32], target_words: &mut [u32], generation: u64,
    ) -> Answer = router_build;
}
