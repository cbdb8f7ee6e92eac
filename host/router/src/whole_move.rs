//! A whole move: up to 64 subjects that are routed together, or not at all.
//!
//! ```
//! use router::{whole_move, List, Refusal, Resolution, Snapshot, WholeMove};
//!
//! fn main() -> Result<(), Refusal> {
//!     let (mut numbers, mut texts) = ([0; 3 * 10], [0; 1000]);
//!     let mut list = List::new(&mut numbers, &mut texts);
//!     list.insert(b"points.*.set", 12)?;
//!     list.insert(b"signal.4.aspect", 40)?;
//!
//!     let (mut nodes, mut targets) = ([0; 16 * 20], [0; 10]);
//!     let built = list.build(&mut nodes, &mut targets)?;
//!     let mut area = [0; 16 * 20 + 10];
//!     let snapshot = Snapshot::new(&built.table, &mut area)?;
//!
//!     // Each subject by where it starts and how long it is.
//!     let orders = b"points.1.set points.2.set signal.4.aspect signal.5.aspect";
//!     let spans = [[0, 12], [13, 12], [26, 15], [42, 15]];
//!     let mut out = [0; 4];
//!     let routed = whole_move(&snapshot, orders, &spans[..3], &mut out)?;
//!     assert_eq!(routed, WholeMove::Routed(&[12, 12, 40]));
//!
//!     // No line matches the last one, so none goes out.
//!     let held_up = whole_move(&snapshot, orders, &spans, &mut out)?;
//!     let (place, resolution) = (3, Resolution::NoStream);
//!     assert_eq!(held_up, WholeMove::Stopped { place, resolution });
//!     Ok(())
//! }
//! ```
use crate::answers::{front, size};
use crate::{raw, Refusal, Resolution, Snapshot};

/// What becomes of a move.
#[derive(Clone, Copy, Debug, PartialEq, Eq)]
pub enum WholeMove<'o> {
    /// Every subject is Routed: their targets, in the order of the subjects.
    Routed(&'o [u32]),
    /// The first subject that is not Routed, counted from 0, and its verdict: NoStream or Ambiguous. None of the orders goes out.
    Stopped {
        place: usize,
        resolution: Resolution,
    },
}

impl<'o> WholeMove<'o> {
    /// What an answer says of the output, or the refusal; `Unknown` for what no call gives, as a stop at a subject that is Routed.
    fn from_words(answer: &raw::Move, out: &'o [u32]) -> Result<WholeMove<'o>, Refusal> {
        let verdict = Resolution::from_words([answer.third, answer.fourth]);
        match (answer.number, answer.first, verdict) {
            (0, 0, _) => Ok(WholeMove::Routed(front(out, answer.second))),
            (0, 1, Ok(resolution)) if !resolution.is_routed() => Ok(WholeMove::Stopped {
                place: size(answer.second),
                resolution,
            }),
            (number, first, _) => {
                let values = [first, answer.second, answer.third];
                Err(Refusal::from_move_words(number, values))
            }
        }
    }
}

/// The targets of all subjects in the first places of `out`, if the standing table routes every one; else the first that is not Routed.
/// A subject is its start in `bytes` and its length. No cache is read or changed.
///
/// Or, in this order: 22, where there are over 64 subjects; of the first subject that is refused, 12 where it lies outside `bytes`, and 1 to 9;
/// 19; and 21, where all are Routed and `out` has fewer places than there are subjects. [`crate::MAX_MOVE`] places are always enough.
/// Only targets are written: the rest of the output is as it was, and so is all of it where the move stops or is refused.
pub fn whole_move<'o>(
    snapshot: &Snapshot<'_>,
    bytes: &[u8],
    spans: &[[usize; 2]],
    out: &'o mut [u32],
) -> Result<WholeMove<'o>, Refusal> {
    let (standing, area) = snapshot.parts();
    let answer = raw::whole_move(standing, area, bytes, spans.as_flattened(), out);
    WholeMove::from_words(&answer, out)
}

#[cfg(test)]
mod tests {
    use super::*;
    use crate::raw::SnapshotState;
    use crate::{resolve_single_home, List, TextRefusal, MAX_MOVE};
    extern crate std;
    use std::{vec, vec::Vec};

    /// A list in which `a`, `b` and `c` are Routed, `both` is Ambiguous, and any other subject of one token is NoStream.
    const LINES: [(&str, u32); 5] = [
        ("a", 7),
        ("b", 8),
        ("c", u32::MAX),
        ("both", 1),
        ("both", 2),
    ];

    /// The words of its table: a root and a node for each of four tokens, and the targets.
    const AREA: usize = 16 * 5 + 5;

    /// The word that an output holds before a call.
    const UNTOUCHED: u32 = 0xdead_beef;

    const NO_STREAM: Resolution = Resolution::NoStream;
    const AMBIGUOUS: Resolution = Resolution::Ambiguous { matched: 2 };
    const EMPTY_TOKEN: TextRefusal = TextRefusal::EmptyToken { index: 1 };

    /// The list's table stands in an area.
    fn standing(area: &mut [u32; AREA]) -> Snapshot<'_> {
        let (mut numbers, mut store) = ([0; 3 * LINES.len()], [0; 16]);
        let mut list = List::new(&mut numbers, &mut store);
        for (pattern, target) in LINES {
            assert_eq!(list.insert(pattern.as_bytes(), target), Ok(()));
        }
        let (mut nodes, mut targets) = ([0; 16 * 6], [0; LINES.len()]);
        let built = list.build(&mut nodes, &mut targets).expect("accepted");
        Snapshot::new(&built.table, area).expect("it fits")
    }

    /// Texts one behind the other, and where each lies.
    fn together(subjects: &[&str]) -> (Vec<u8>, Vec<[usize; 2]>) {
        let (mut bytes, mut spans) = (Vec::new(), Vec::new());
        for subject in subjects {
            spans.push([bytes.len(), subject.len()]);
            bytes.extend_from_slice(subject.as_bytes());
        }
        (bytes, spans)
    }

    /// What a move with so many places of output gives. The targets are written, and nothing else.
    fn checked(
        snapshot: &Snapshot<'_>,
        bytes: &[u8],
        spans: &[[usize; 2]],
        places: usize,
        expected: Result<WholeMove<'_>, Refusal>,
    ) {
        let mut out = vec![UNTOUCHED; places];
        assert_eq!(whole_move(snapshot, bytes, spans, &mut out), expected);
        let targets = match expected {
            Ok(WholeMove::Routed(targets)) => targets,
            _ => &[],
        };
        let (written, rest) = out.split_at(targets.len());
        assert_eq!(written, targets);
        assert!(rest.iter().all(|&word| word == UNTOUCHED));
    }

    /// The same for texts, by the list's table.
    fn checked_texts(subjects: &[&str], places: usize, expected: Result<WholeMove<'_>, Refusal>) {
        let mut area = [0; AREA];
        let snapshot = standing(&mut area);
        let (bytes, spans) = together(subjects);
        checked(&snapshot, &bytes, &spans, places, expected);
    }

    fn stopped(place: usize, resolution: Resolution) -> Result<WholeMove<'static>, Refusal> {
        Ok(WholeMove::Stopped { place, resolution })
    }

    fn refused(place: usize, text: TextRefusal) -> Result<WholeMove<'static>, Refusal> {
        Err(Refusal::Subject { place, text })
    }

    #[test]
    fn every_subject_is_routed() {
        let routed = Ok(WholeMove::Routed(&[8, 7, u32::MAX, 8]));
        for places in [4, 5, 100] {
            checked_texts(&["b", "a", "c", "b"], places, routed);
        }
    }

    #[test]
    fn the_first_that_is_not_routed_stops_it() {
        for places in [0, 2, 9] {
            checked_texts(&["a", "x", "both"], places, stopped(1, NO_STREAM));
            checked_texts(&["a", "b", "both", "x"], places, stopped(2, AMBIGUOUS));
            checked_texts(&["both"], places, stopped(0, AMBIGUOUS));
        }
    }

    #[test]
    fn a_late_refusal_comes_before_an_early_verdict() {
        let wild = TextRefusal::WildcardNotAllowed { ch: '*', index: 0 };
        checked_texts(&["x", "both", "a..b"], 9, refused(2, EMPTY_TOKEN));
        checked_texts(&["a", "*", "a..b"], 0, refused(1, wild));
        checked_texts(&["a", ""], 9, refused(1, TextRefusal::Empty));
    }

    #[test]
    fn a_subject_outside_the_bytes_at_its_turn() {
        let mut area = [0; AREA];
        let snapshot = standing(&mut area);
        let outside = |place| Err(Refusal::SubjectOutside { place });
        let bytes = b"axa..b";
        let (routed, lost, empty) = ([0, 1], [1, 1], [2, 4]);
        for span in [
            [0, 7],
            [6, 1],
            [7, 0],
            [usize::MAX, 0],
            [0, usize::MAX],
            [1, usize::MAX],
            [usize::MAX, 1],
            [usize::MAX, 2],
            [usize::MAX, usize::MAX],
        ] {
            checked(&snapshot, bytes, &[span], 9, outside(0));
            let late = [lost, routed, span, empty];
            checked(&snapshot, bytes, &late, 9, outside(2));
            let early = refused(0, EMPTY_TOKEN);
            checked(&snapshot, bytes, &[empty, span], 9, early);
        }
        let at_the_end = refused(0, TextRefusal::Empty);
        checked(&snapshot, bytes, &[[6, 0]], 9, at_the_end);
    }

    #[test]
    fn so_many_and_no_more() {
        let routed = Ok(WholeMove::Routed(&[7; MAX_MOVE]));
        checked_texts(&["a"; MAX_MOVE], MAX_MOVE, routed);
        checked_texts(&["a"; MAX_MOVE + 1], 100, Err(Refusal::SetTooLarge));
        checked_texts(&["a..b"; MAX_MOVE], 9, refused(0, EMPTY_TOKEN));
        checked_texts(&["a..b"; MAX_MOVE + 1], 9, Err(Refusal::SetTooLarge));
        let mut area = [0; AREA];
        let snapshot = standing(&mut area);
        let outside = [[usize::MAX; 2]; MAX_MOVE + 1];
        checked(&snapshot, &[], &outside, 9, Err(Refusal::SetTooLarge));
    }

    #[test]
    fn a_short_output_after_the_verdicts() {
        for places in [0, 1, 2] {
            let short = Err(Refusal::OutShort { needed: 3 });
            checked_texts(&["a", "b", "c"], places, short);
            checked_texts(&["a", "b", "x"], places, stopped(2, NO_STREAM));
            checked_texts(&["a", "b", "a..b"], places, refused(2, EMPTY_TOKEN));
        }
    }

    #[test]
    fn a_move_of_none() {
        for places in [0, 3] {
            checked_texts(&[], places, Ok(WholeMove::Routed(&[])));
        }
    }

    #[test]
    fn counts_that_do_not_fit() {
        let rows = [
            ("", refused(0, TextRefusal::Empty)),
            ("a", Err(Refusal::Damaged)),
        ];
        for (nodes, targets) in [(0, 0), (2, 0), (1, 1), (usize::MAX, 0), (1, usize::MAX)] {
            let mut area = [0; 16];
            let state = SnapshotState {
                nodes,
                targets,
                ..SnapshotState::default()
            };
            let snapshot = Snapshot::from_parts(state, &mut area);
            checked(&snapshot, &[], &[], 9, Err(Refusal::Damaged));
            for (subject, expected) in rows {
                let (bytes, spans) = together(&[subject]);
                checked(&snapshot, &bytes, &spans, 9, expected);
            }
        }
    }

    #[test]
    fn words_that_point_outside() {
        let mut area = [u32::MAX; 16];
        let state = SnapshotState {
            nodes: 1,
            ..SnapshotState::default()
        };
        let snapshot = Snapshot::from_parts(state, &mut area);
        checked(&snapshot, b"a", &[], 9, Ok(WholeMove::Routed(&[])));
        checked(&snapshot, b"a", &[[0, 1]], 9, Err(Refusal::Damaged));
    }

    #[test]
    fn one_subject_has_the_plain_verdict() {
        let mut area = [0; AREA];
        let snapshot = standing(&mut area);
        for subject in ["a", "b", "c", "both", "x", "a.b", "a..b", "", "*"] {
            let plain = resolve_single_home(&snapshot, subject.as_bytes(), &mut [0; AREA]);
            let expected = match plain.map(|verdict| verdict.resolution) {
                Ok(Resolution::Routed(target)) => Ok(WholeMove::Routed(&[target])),
                Ok(resolution) => stopped(0, resolution),
                Err(Refusal::Text(text)) => refused(0, text),
                Err(refusal) => Err(refusal),
            };
            checked_texts(&[subject], 9, expected);
        }
    }

    #[test]
    fn other_answers_are_unknown() {
        let answer = |number, [first, second, third, fourth]: [u64; 4]| raw::Move {
            number,
            first,
            second,
            third,
            fourth,
        };
        let out = [UNTOUCHED; 3];
        let read = |answer: raw::Move| WholeMove::from_words(&answer, &out);
        let routed = Ok(WholeMove::Routed(&out[..2]));
        assert_eq!(read(answer(0, [0, 2, 0, 0])), routed);
        assert_eq!(read(answer(0, [1, 5, 2, 2])), stopped(5, AMBIGUOUS));
        for (number, values) in [
            (0, [1, 2, 1, 7]),
            (0, [1, 2, 3, 0]),
            (0, [2, 0, 0, 0]),
            (0, [u64::MAX; 4]),
            (7, [0, 0xd800, 0, 0]),
            (23, [0; 4]),
        ] {
            let [first, second, third, _] = values;
            let unknown = Refusal::Unknown {
                number,
                values: [first, second, third],
            };
            assert_eq!(read(answer(number, values)), Err(unknown));
        }
    }
}
