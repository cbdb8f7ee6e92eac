//! Crossings of which a shortest subject has about 4,096 bytes.
use super::pair::Pair;
use crate::tally::{shown, Family, Tally};
use compare::model_crossing::Due;
use compare::original::MAX_TEXT;

/// Two patterns: in place of A and of B stand literals of any length. Their crossing has B once.
const SHAPES: [[&str; 2]; 12] = [
    ["A.*", "*.B"],
    ["A.>", "*.B"],
    ["A.>", "*.B.>"],
    ["A.*.*", "*.B.*"],
    ["A.*.*", "*.B.>"],
    ["A.x.*", "*.*.B"],
    ["*.A.>", "B.>"],
    ["*.A.*.>", "B.*.c.*.*"],
    ["A.B", ">"],
    ["A.B", "*.*"],
    ["A.B", "A.>"],
    ["A.B", "A.B"],
];

/// The bytes of A.
const LENGTHS: [usize; 8] = [1, 2, 7, 1000, 2047, 2048, 4000, 4090];

/// The shapes, and two of 32 tokens.
fn shapes() -> Vec<[String; 2]> {
    let mut shapes = SHAPES.map(|shape| shape.map(String::from)).to_vec();
    shapes.push([
        format!("A{}", ".*".repeat(31)),
        format!("*.B{}", ".*".repeat(30)),
    ]);
    shapes.push([
        format!("A.*{}.>", ".c.*".repeat(14)),
        format!("*.B{}", ".*.ß".repeat(15)),
    ]);
    shapes
}

/// A shape with literals of so many bytes.
fn filled(shape: &[String; 2], a: usize, b: usize) -> [Vec<u8>; 2] {
    let [a, b] = [("a", a), ("b", b)].map(|(letter, bytes)| letter.repeat(bytes));
    let fill = |pattern: &String| pattern.replace('A', &a).replace('B', &b).into_bytes();
    [fill(&shape[0]), fill(&shape[1])]
}

/// A shape whose crossing has so many bytes, in both orders, with outputs of all lengths; nothing if A alone is too long for that.
fn crossing_of(tally: &mut Tally, shape: &[String; 2], a: usize, bytes: usize) {
    let [first, second] = filled(shape, a, 1);
    let Due::Shown(short) = Due::new([&first, &second]) else {
        return;
    };
    let Some(b) = (bytes + 1).checked_sub(short.len()).filter(|&b| b > 0) else {
        return;
    };
    let [first, second] = filled(shape, a, b);
    for patterns in [[&first[..], &second], [&second, &first]] {
        let pair = Pair::new(patterns);
        let found = match &pair.due {
            Due::Shown(subject) => subject.len(),
            Due::TooLong(bytes) => *bytes,
            _ => bytes,
        };
        tally.compare_on("the bytes of a crossing", || shown(&patterns), found, bytes);
        pair.calls(tally, pair.all_lengths());
    }
}

pub fn run(tally: &mut Tally) {
    for shape in shapes() {
        for a in LENGTHS {
            for bytes in MAX_TEXT - 2..=MAX_TEXT + 2 {
                crossing_of(tally, &shape, a, bytes);
            }
        }
    }
    tally.report(Family::Crossings, "crossings of about 4,096 bytes");
}
