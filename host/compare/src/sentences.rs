//! A request's sentences, one by one, and whether an answer keeps to them.

/// A sentence that an answer does not keep to.
#[derive(Debug, PartialEq, Eq)]
pub struct Broken(&'static str);

/// Nothing, or the sentence that is not kept to.
pub fn holds(sentence: &'static str, kept: bool) -> Result<(), Broken> {
    kept.then_some(()).ok_or(Broken(sentence))
}
