//! The calls on texts.
use super::calls::calls;
use super::Answer;

calls! {
    /// A text as a literal subject: its token count, or why it is refused.
    pub fn parse_literal(text: &[u8]) -> Answer = router_parse_literal;

    /// A text as a pattern: its token count, or why it is refused.
    pub fn parse(text: &[u8]) -> Answer = router_parse;

    /// Whether a pattern matches a subject, as 1 or 0, or why one of the two is refused, the pattern first.
    pub fn matches(pattern: &[u8], subject: &[u8]) -> Answer = router_matches;

    /// A shortest subject that two patterns both match, written to `out` from the first byte on: 1 and its length in bytes, or 0 where there is none.
    /// Or 1 to 9 of the first pattern, then of the second; or 21.
    pub fn crossing(first: &[u8], second: &[u8], out: &mut [u8]) -> Answer = router_crossing;

    /// The hash of a token: 64-bit FNV-1a.
    pub fn token_hash(token: &[u8]) -> u64 = router_token_hash;

    /// The number of tokens of a text.
    pub fn depth(text: &[u8]) -> u64 = router_depth;

    /// Where token `n` of a text stands, counted from 0: 1, its start and its end; or 0 where there is none.
    pub fn nth_token(text: &[u8], n: usize) -> Answer = router_nth_token;

    fn tail_wildcards(text: &[u8]) -> u64 = router_has_tail_wildcard;
}

/// Whether the last token of a text is `>`.
pub fn has_tail_wildcard(text: &[u8]) -> bool {
    tail_wildcards(text) == 1
}
