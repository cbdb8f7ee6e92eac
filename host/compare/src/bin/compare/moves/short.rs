//! Every move of few subjects out of some, with every output that matters, on a sound table and on damaged ones.
use super::ground::Ground;
use super::lines;
use super::subjects::{Subjects, Text};
use crate::tally::{Family, Tally};
use compare::lists::runs;

/// Two lines `c` to one panel are two lines all the same.
const LINES: [(&str, u32); 9] = [
    ("a", 7),
    ("b.>", 8),
    ("zero", 0),
    ("last.f", u32::MAX),
    ("c", 9),
    ("c", 9),
    ("d.*", 3),
    ("d.e", 4),
    ("d.>", 5),
];

/// Four that are routed, one that no line matches, two that two or three match, two that are refused, and one outside the bytes.
const TEXTS: [Text; 10] = [
    Text::Lent(b"a"),
    Text::Lent(b"b.x.y"),
    Text::Lent(b"zero"),
    Text::Lent(b"last.f"),
    Text::Lent(b"none"),
    Text::Lent(b"c"),
    Text::Lent(b"d.e"),
    Text::Lent(b""),
    Text::Lent(b"a.*"),
    Text::Behind(b"a"),
];

/// Up to so many of them are asked for together, with outputs of up to one place more.
const MOST: usize = 4;

/// Changes of the table, by what meets them.
const DAMAGES: [fn(&mut Ground); 9] = [
    // Every move: there is no node, or there are fewer target words than targets.
    |ground| ground.snapshot.nodes = 0,
    |ground| ground.lent_words -= 4,
    // The walk of `last.f`: its node points outside,
    |ground| {
        let (last, nodes) = (ground.node("last"), ground.snapshot.nodes);
        *ground.word(last, 2) = nodes as u32;
    },
    // it goes round,
    |ground| {
        let end = ground.node("last.f");
        *ground.word(end, 0) ^= 1;
        for way in 8..12 {
            *ground.word(end, way) = end as u32;
        }
    },
    // the targets at its end lie outside,
    |ground| {
        let end = ground.node("last.f");
        *ground.word(end, 4) = u32::MAX;
    },
    // and so do those that it passes.
    |ground| {
        let (last, targets) = (ground.node("last"), ground.snapshot.targets);
        *ground.word(last, 7) = targets as u32 + 1;
    },
    // The walk of `c`: the second of its targets lies outside.
    |ground| {
        let (end, targets) = (ground.node("c"), ground.snapshot.targets);
        *ground.word(end, 4) = targets as u32 - 1;
    },
    // The walk of `d.e`, when it has found two targets.
    |ground| {
        let parent = ground.node("d");
        let star = *ground.word(parent, 3) as usize;
        *ground.word(star, 5) = u32::MAX;
    },
    // Every walk: the root points outside.
    |ground| *ground.word(0, 3) = ground.snapshot.nodes as u32,
];

/// Every move on a table.
fn all(tally: &mut Tally, ground: &Ground) {
    for texts in runs(&TEXTS, MOST) {
        let subjects = Subjects::packed(&texts);
        for places in 0..=MOST + 1 {
            ground.call(tally, &subjects, places);
        }
    }
}

pub fn run(tally: &mut Tally) {
    let sound = Ground::built(tally, &lines(&LINES));
    all(tally, &sound);
    let part = "moves of up to 4 out of 10 subjects, all of them";
    tally.report(Family::Moves, part);
    for damage in DAMAGES {
        all(tally, &sound.changed(damage));
    }
    let part = "the same on nine damaged tables";
    tally.report(Family::Moves, part);
}
