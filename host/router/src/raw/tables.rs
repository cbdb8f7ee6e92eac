//! The calls on tables.
use super::calls::calls;
use super::Answer;

calls! {
    /// The targets that a subject matches in a table of so many nodes and targets, written to `out` from the first place on:
    /// their number and the peak, or 1 to 9, 19, 21.
    pub fn match_table(
        nodes: usize, targets: usize, node_words: &[u32], target_words: &[u32],
        subject: &[u8], out: &mut [u32],
    ) -> Answer = router_match;

    /// The same on areas of bytes, lowest byte of a word first; whole words count. 99 if the three areas are together more than 65,536 bytes.
    pub fn match_bytes(
        nodes: usize, targets: usize, node_bytes: &[u8], target_bytes: &[u8],
        subject: &[u8], out_bytes: &mut [u8],
    ) -> Answer = router_match_bytes;
}
