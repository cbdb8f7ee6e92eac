//! The mark of a text by its definition, apart from the router: sixteen bits made of all its bytes.

/// Word j of a text is the number that its eight bytes from 8 j on spell, lowest first. The last word is that of its last eight bytes; a text of fewer has one
/// word, in which 0 stands for the bytes that are not there.
fn words(text: &[u8]) -> impl Iterator<Item = u64> + '_ {
    let last = text.len().saturating_sub(8);
    (0..text.len().div_ceil(8)).map(move |word| {
        let bytes = text[last.min(8 * word)..].iter().take(8);
        bytes
            .rev()
            .fold(0, |word, &byte| word * 256 + u64::from(byte))
    })
}

/// FNV-1a over the words in place of bytes; the upper half of that, spread over sixteen bits.
pub fn mark(text: &[u8]) -> u16 {
    let mix = |hash: u64, word: u64| (hash ^ word).wrapping_mul(0x100_0000_01b3);
    let hash = words(text).fold(0xcbf2_9ce4_8422_2325, mix);
    (((hash >> 32) * 0x1e37_79b1) >> 16) as u16
}
