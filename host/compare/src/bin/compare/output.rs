//! An output between two margins, which a call must leave as they are too.
use crate::tables::fresh_words;
use std::ops::Range;

/// The bytes of a margin, and the words of one: more than the most targets that a whole move writes.
const MARGIN: usize = 8;
const WORD_MARGIN: usize = 72;

/// Bytes as they stand before a call: not the same as their neighbours, and none that a well-formed text has.
fn fresh_bytes(length: usize) -> Vec<u8> {
    (0..length).map(|place| 0xf5 + (place % 11) as u8).collect()
}

/// An output as it was before a call, and as it is, each with its margins.
pub struct Output<T> {
    margin: usize,
    before: Vec<T>,
    after: Vec<T>,
}

impl Output<u8> {
    /// An output of so many bytes.
    pub fn new(length: usize) -> Output<u8> {
        Output::between(MARGIN, fresh_bytes(length + 2 * MARGIN))
    }
}

impl Output<u32> {
    /// An output of so many words.
    pub fn words(length: usize) -> Output<u32> {
        Output::between(WORD_MARGIN, fresh_words(length + 2 * WORD_MARGIN))
    }
}

impl<T: Copy> Output<T> {
    fn between(margin: usize, before: Vec<T>) -> Output<T> {
        let after = before.clone();
        Output {
            margin,
            before,
            after,
        }
    }

    /// Where it lies between the margins.
    fn inner(&self) -> Range<usize> {
        self.margin..self.before.len() - self.margin
    }

    /// What a call is lent.
    pub fn lent(&mut self) -> &mut [T] {
        let inner = self.inner();
        &mut self.after[inner]
    }

    pub fn before(&self) -> &[T] {
        &self.before[self.inner()]
    }

    pub fn after(&self) -> &[T] {
        &self.after[self.inner()]
    }

    /// All of it with the margins, as it is, and as it should be once this was written from the first place of the output on.
    pub fn with_margins(self, written: &[T]) -> [Vec<T>; 2] {
        let mut due = self.before;
        due[self.margin..][..written.len()].copy_from_slice(written);
        [self.after, due]
    }
}
