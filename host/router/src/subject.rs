//! Texts: subjects and patterns, whether one matches the other, and whether two patterns have a subject in common.
use crate::answers::{accepted, front, size};
use crate::{raw, Refusal};
use core::ops::Range;

/// A text as a literal subject: its token count, 1 to 32, or why it is refused (1 to 9).
pub fn parse_literal(text: &[u8]) -> Result<usize, Refusal> {
    accepted(raw::parse_literal(text)).map(|[count, ..]| size(count))
}

/// A text as a pattern: its token count, 1 to 32, or why it is refused (1 to 9).
pub fn parse(text: &[u8]) -> Result<usize, Refusal> {
    accepted(raw::parse(text)).map(|[count, ..]| size(count))
}

/// Whether a pattern matches a subject, or why one of the two is refused (1 to 9), the pattern first.
pub fn matches(pattern: &[u8], subject: &[u8]) -> Result<bool, Refusal> {
    accepted(raw::matches(pattern, subject)).map(|[yes, ..]| yes == 1)
}

/// A subject that two patterns both match, in the first bytes of `out`; or none, exactly if no accepted subject, so of at most 4,096 bytes, matches both.
/// Every other that both match has at least as many bytes. A position that is wild in both patterns has the token `x`.
///
/// Or why one of the two is refused (1 to 9), the first before the second; then 21, where the subject is longer than `out`. [`crate::MAX_TEXT`] bytes
/// are always enough; where there is no subject, none are needed. Only the bytes of the subject are written: the rest of the output is as it was, and
/// so is all of it where there is none, and on a refusal.
pub fn crossing<'o>(
    first: &[u8],
    second: &[u8],
    out: &'o mut [u8],
) -> Result<Option<&'o [u8]>, Refusal> {
    let [found, length, _] = accepted(raw::crossing(first, second, out))?;
    Ok((found == 1).then(|| front(out, length)))
}

/// The hash by which a table tells tokens apart: 64-bit FNV-1a.
pub fn token_hash(token: &[u8]) -> u64 {
    raw::token_hash(token)
}

/// The number of tokens of a text, accepted or not.
pub fn depth(text: &[u8]) -> usize {
    size(raw::depth(text))
}

/// Whether the last token of a text, accepted or not, is `>`.
pub fn has_tail_wildcard(text: &[u8]) -> bool {
    raw::has_tail_wildcard(text)
}

/// Where token `n` of a text stands, counted from 0, accepted or not; none where it has fewer.
pub fn nth_token(text: &[u8], n: usize) -> Option<Range<usize>> {
    let token = raw::nth_token(text, n);
    (token.first == 1).then(|| size(token.second)..size(token.third))
}

/// The tokens of a text, accepted or not, in order. Each is looked for from the start of the text.
pub fn tokens(text: &[u8]) -> impl Iterator<Item = &[u8]> {
    (0..).map_while(|n| text.get(nth_token(text, n)?))
}

#[cfg(test)]
mod tests {
    use super::*;
    use crate::{TextRefusal, MAX_TEXT};

    #[test]
    fn texts() {
        assert_eq!(parse_literal(b"yard.north.points.17.set"), Ok(5));
        assert_eq!(parse(b"yard.*.points.>"), Ok(4));
        assert_eq!(parse(b""), Err(TextRefusal::Empty.into()));
        let tail = TextRefusal::TailWildcardNotLast { index: 0 };
        assert_eq!(parse(b">.a"), Err(tail.into()));
        let wild = TextRefusal::WildcardNotAllowed { ch: '>', index: 0 };
        assert_eq!(parse_literal(b">.a"), Err(wild.into()));
        let cut = TextRefusal::NotUtf8 { index: 1 };
        assert_eq!(parse_literal(b"a\xc0\x80"), Err(cut.into()));
    }

    #[test]
    fn matching() {
        assert_eq!(matches(b"a.>", b"a.b.c"), Ok(true));
        assert_eq!(matches(b"a.>", b"a"), Ok(false));
        let inside = TextRefusal::IllegalChar { ch: '*', index: 0 };
        assert_eq!(matches(b"a*", b""), Err(inside.into()));
    }

    /// The byte that an output holds before a call.
    const UNTOUCHED: u8 = b'-';

    /// The length of a subject in common, with an output of so many bytes. Both patterns match it, and what is not written is left.
    fn crossed<const BYTES: usize>(first: &[u8], second: &[u8]) -> Result<Option<usize>, Refusal> {
        let mut out = [UNTOUCHED; BYTES];
        let length = crossing(first, second, &mut out).map(|found| {
            found.map(|subject| {
                assert_eq!(matches(first, subject), Ok(true));
                assert_eq!(matches(second, subject), Ok(true));
                subject.len()
            })
        });
        let written = length.ok().flatten().unwrap_or(0);
        assert!(out[written..].iter().all(|&byte| byte == UNTOUCHED));
        length
    }

    #[test]
    fn subjects_in_common() {
        let rows: [(&[u8], &[u8], &[u8]); 7] = [
            (b"a.*", b"*.b", b"a.b"),
            (b">", b">", b"x"),
            (b"a.>", b"*.*.b", b"a.x.b"),
            (b"*.*.b", b"a.>", b"a.x.b"),
            (b"*", b">", b"x"),
            (b"a.b", b"a.b", b"a.b"),
            ("weiche-ö.*".as_bytes(), b">", "weiche-ö.x".as_bytes()),
        ];
        for (first, second, subject) in rows {
            assert_eq!(crossing(first, second, &mut [0; 16]), Ok(Some(subject)));
            assert_eq!(crossed::<16>(first, second), Ok(Some(subject.len())));
        }
    }

    #[test]
    fn no_subject_in_common() {
        let rows: [(&[u8], &[u8]); 5] = [
            (b"a.>", b"a"),
            (b"a", b"a.>"),
            (b"a.b", b"a.c"),
            (b"*", b"*.*"),
            (b"a.*.c", b"*.b.d"),
        ];
        for (first, second) in rows {
            assert_eq!(crossed::<9>(first, second), Ok(None));
            assert_eq!(crossed::<0>(first, second), Ok(None));
        }
    }

    #[test]
    fn crossings_refused() {
        let empty = TextRefusal::EmptyToken { index: 1 };
        let inside = TextRefusal::IllegalChar { ch: '*', index: 0 };
        assert_eq!(crossed::<9>(b"a..b", b"a*"), Err(empty.into()));
        assert_eq!(crossed::<9>(b"a*", b"a..b"), Err(inside.into()));
        assert_eq!(crossed::<0>(b"a", b"a..b"), Err(empty.into()));
        let short = Err(Refusal::OutShort { needed: 5 });
        assert_eq!(crossed::<4>(b"a.>", b"*.*.b"), short);
        assert_eq!(crossed::<0>(b"a.>", b"*.*.b"), short);
        assert_eq!(crossed::<5>(b"a.>", b"*.*.b"), Ok(Some(5)));
    }

    #[test]
    fn the_longest_subject_in_common() {
        let mut second = [b'b'; 2 + 2048];
        second[..2].copy_from_slice(b"*.");
        let mut first = [b'a'; 2047 + 2];
        first[2047..].copy_from_slice(b".*");
        assert_eq!(crossed::<MAX_TEXT>(&first, &second), Ok(Some(4096)));
        let short = Err(Refusal::OutShort { needed: 4096 });
        assert_eq!(crossed::<4095>(&first, &second), short);
        let mut first = [b'a'; 2048 + 2];
        first[2048..].copy_from_slice(b".*");
        assert_eq!(crossed::<MAX_TEXT>(&first, &second), Ok(None));
        assert_eq!(crossed::<0>(&first, &second), Ok(None));
    }

    #[test]
    fn hash_and_tokens() {
        assert_eq!(token_hash(b""), 0xcbf2_9ce4_8422_2325);
        assert_eq!((depth(b"a..b"), depth(b"")), (3, 1));
        assert!(has_tail_wildcard(b"a.>") && !has_tail_wildcard(b"a>"));
    }

    #[test]
    fn tokens_in_turn() {
        let text = b"yard.north.17";
        assert_eq!(nth_token(text, 0), Some(0..4));
        assert_eq!(nth_token(text, 2), Some(11..13));
        assert_eq!(
            (nth_token(text, 3), nth_token(text, usize::MAX)),
            (None, None)
        );
        assert_eq!((nth_token(b"", 0), nth_token(b"", 1)), (Some(0..0), None));
        assert_eq!(nth_token(b"a..b.", 1), Some(2..2));
        assert_eq!(nth_token(b"a..b.", 3), Some(5..5));
        assert!(tokens(text).eq([&b"yard"[..], b"north", b"17"]));
        assert!(tokens(b".").eq([b"", b""]));
        assert_eq!(tokens(b"\xff.>.*").count(), depth(b"\xff.>.*"));
    }
}
