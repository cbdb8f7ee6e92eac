//! The calls of the load maker.
use super::calls::calls;
use super::MadeText;

calls! {
    /// One draw: the state after `state`, by Marsaglia's xorshift with shifts left 13, right 7, left 17.
    pub fn draw(state: u64) -> u64 = router_draw;

    /// A pattern is made from a state and written to `out` from the first byte on; or 28, or 21.
    pub fn make_pattern(state: u64, out: &mut [u8]) -> MadeText = router_make_pattern;

    /// A subject is made from a state and written to `out` from the first byte on; or 28, or 21.
    pub fn make_subject(state: u64, out: &mut [u8]) -> MadeText = router_make_subject;
}
