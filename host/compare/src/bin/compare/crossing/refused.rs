//! Crossings of patterns that are refused, with each other and with accepted ones.
use super::pair::Pair;
use crate::seen;
use crate::tally::{Family, Tally};
use compare::original;

/// Patterns refused for each reason that one can have, but for those that are long.
const REFUSED: [&[u8]; 17] = [
    b"a\xc0\x80",
    b"\xff",
    b"a.*.\xe2\x82",
    b"",
    b">.a",
    b"a.>.>",
    b".",
    b"a..b",
    b".a",
    b"*.",
    b"a.\x01",
    b"\x7f",
    b"*.a\x1fb",
    b"a*",
    b"*.b>c",
    b"a.**",
    b">>",
];

const ACCEPTED: [&[u8]; 7] = [b"a", b"b", b"*", b">", b"a.>", b"*.b", "ä. ".as_bytes()];

/// Patterns of 4,097 bytes, once not UTF-8 either, and of 33 tokens.
fn long() -> Vec<Vec<u8>> {
    vec![
        vec![b'a'; 4097],
        vec![0xff; 4097],
        b"a.".repeat(32),
        [&b"*.".repeat(32)[..], b">"].concat(),
    ]
}

pub fn run(tally: &mut Tally) {
    let short = REFUSED.iter().chain(&ACCEPTED).map(|text| text.to_vec());
    let texts: Vec<Vec<u8>> = short.chain(long()).collect();
    let refused = |text: &&[u8]| !original::parse(text).accepted();
    for first in &texts {
        for second in &texts {
            let pair = Pair::new([first, second]);
            pair.calls(tally, pair.all_lengths());
            if pair.patterns.iter().all(refused) {
                tally.seen.way(seen::BOTH_REFUSED);
            }
        }
    }
    let part = "crossings of refused and accepted patterns";
    tally.report(Family::Crossings, part);
}
