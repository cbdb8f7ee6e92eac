//! The load maker: patterns and subjects that are drawn from a 64-bit start, the same wherever the start is the same.
//!
//! ```
//! use router::{make_pattern, make_subject, Refusal, MADE_TEXT};
//!
//! fn main() -> Result<(), Refusal> {
//!     let mut room = [0; MADE_TEXT];
//!     let mut state = 88172645463325252;
//!     for pattern in ["d.a.b", "h.*.b.e.d"] {
//!         let made = make_pattern(state, &mut room)?;
//!         assert_eq!(made.text, pattern.as_bytes());
//!         state = made.state;
//!     }
//!     assert_eq!(make_subject(state, &mut room)?.text, b"e.d.d.g");
//!     Ok(())
//! }
//! ```
use crate::answers::{front, values};
use crate::{raw, Refusal};

/// A text that was made, and the state after it, from which the next one is made.
#[derive(Clone, Copy, Debug, PartialEq, Eq)]
pub struct Made<'o> {
    pub text: &'o [u8],
    pub state: u64,
}

impl<'o> Made<'o> {
    /// What an answer says of the output, or the refusal.
    fn from_words(answer: &raw::MadeText, out: &'o [u8]) -> Result<Made<'o>, Refusal> {
        let [length, ..] = values(answer.number, [answer.value, 0, 0])?;
        Ok(Made {
            text: front(out, length),
            state: answer.state,
        })
    }
}

/// One draw: the state after `state`, by Marsaglia's xorshift with shifts left 13, right 7, left 17. After 0 it is 0, and after no other.
pub fn draw(state: u64) -> u64 {
    raw::draw(state)
}

/// A pattern in the first bytes of `out`: 1 + draw mod 6 tokens, and each token by draw mod 10. 0 is `*`; 1 is `>` at the end and `*` elsewhere;
/// 2 to 9 are `a` to `h`. [`crate::parse`] accepts it.
///
/// Or 28, where the state is 0; then 21, where the pattern is longer than `out`. [`crate::MADE_TEXT`] bytes are always enough. Only the bytes of the
/// pattern are written: the rest of the output is as it was, and so is all of it on a refusal, which draws nothing: the caller's state still stands.
pub fn make_pattern(state: u64, out: &mut [u8]) -> Result<Made<'_>, Refusal> {
    Made::from_words(&raw::make_pattern(state, out), out)
}

/// A subject in the first bytes of `out`: 1 + draw mod 6 tokens, and each token by draw mod 8, where 0 to 7 are `a` to `h`.
/// [`crate::parse_literal`] accepts it. Refusals and output are as with [`make_pattern`].
pub fn make_subject(state: u64, out: &mut [u8]) -> Result<Made<'_>, Refusal> {
    Made::from_words(&raw::make_subject(state, out), out)
}

#[cfg(test)]
mod tests {
    use super::*;
    use crate::{parse, parse_literal, MADE_TEXT};

    /// A start, and the draws from it.
    const START: u64 = 88172645463325252;
    const DRAWN: [u64; 4] = [
        8748534153485358512,
        3040900993826735515,
        3453997556048239312,
        16431732851926010853,
    ];

    /// The byte that an output holds before a call.
    const UNTOUCHED: u8 = b'-';

    type Maker = fn(u64, &mut [u8]) -> Result<Made<'_>, Refusal>;
    const MAKERS: [Maker; 2] = [make_pattern, make_subject];

    /// The length of a text and the state after it, with an output of so many bytes. What is not written is left.
    fn made<const BYTES: usize>(make: Maker, state: u64) -> Result<(usize, u64), Refusal> {
        let mut out = [UNTOUCHED; BYTES];
        let made = make(state, &mut out).map(|made| (made.text.len(), made.state));
        let written = made.map_or(0, |(length, _)| length);
        assert!(out[..written].iter().all(|&byte| byte != UNTOUCHED));
        assert!(out[written..].iter().all(|&byte| byte == UNTOUCHED));
        made
    }

    #[test]
    fn draws() {
        let mut state = START;
        for drawn in DRAWN {
            state = draw(state);
            assert_eq!(state, drawn);
        }
        assert_eq!((draw(0), draw(1)), (0, 0x4082_2041));
    }

    #[test]
    fn texts_of_known_starts() {
        let (second, last) = (14546003305709394545, 1152851127339773951);
        let rows: [(Maker, u64, &[u8], u64); 7] = [
            (make_pattern, START, b"d.a.b", DRAWN[3]),
            (make_subject, START, b"d.a.f", DRAWN[3]),
            (make_pattern, DRAWN[3], b"h.*.b.e.d", second),
            (make_subject, DRAWN[3], b"f.b.h.g.b", second),
            (make_pattern, u64::MAX, b">", last),
            (make_subject, u64::MAX, b"h", last),
            (make_pattern, 1 << 63, b"*", 9223934986808197120),
        ];
        for (make, start, text, state) in rows {
            let made = Made { text, state };
            assert_eq!(make(start, &mut [0; MADE_TEXT]), Ok(made));
        }
    }

    #[test]
    fn the_grammar_accepts_every_text() {
        let mut room = [0; MADE_TEXT];
        let mut longest = 0;
        for start in [1, START, u64::MAX] {
            let mut state = start;
            for _ in 0..1000 {
                let pattern = make_pattern(state, &mut room).expect("the room is enough");
                assert_eq!(parse(pattern.text), Ok(pattern.text.len().div_ceil(2)));
                longest = longest.max(pattern.text.len());
                state = pattern.state;
                let subject = make_subject(state, &mut room).expect("the room is enough");
                let tokens = subject.text.len().div_ceil(2);
                assert_eq!(parse_literal(subject.text), Ok(tokens));
                state = subject.state;
                assert_ne!(state, 0);
            }
        }
        assert_eq!(longest, MADE_TEXT);
    }

    #[test]
    fn only_the_text_is_written() {
        for make in MAKERS {
            let mut state = START;
            for _ in 0..1000 {
                let exact = made::<MADE_TEXT>(make, state);
                assert_eq!(made::<64>(make, state), exact);
                state = exact.expect("the room is enough").1;
            }
        }
    }

    #[test]
    fn refusals_in_order() {
        let short = Err(Refusal::OutShort { needed: 5 });
        for make in MAKERS {
            assert_eq!(made::<0>(make, 0), Err(Refusal::ZeroStart));
            assert_eq!(made::<16>(make, 0), Err(Refusal::ZeroStart));
            assert_eq!(made::<0>(make, START), short);
            assert_eq!(made::<4>(make, START), short);
            assert_eq!(made::<5>(make, START), Ok((5, DRAWN[3])));
        }
    }

    #[test]
    fn a_refusal_hands_back_the_state() {
        for (state, number, value) in [(0, 28, 0), (START, 21, 5)] {
            let refused = raw::MadeText {
                number,
                value,
                state,
            };
            assert_eq!(raw::make_pattern(state, &mut [0; 4]), refused);
            assert_eq!(raw::make_subject(state, &mut [0; 4]), refused);
        }
    }
}
