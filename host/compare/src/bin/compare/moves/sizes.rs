//! Moves of every number of subjects up to some more than there may be, and of about 64 with one or two subjects at any places that are not routed.
use super::ground::Ground;
use super::lines;
use super::subjects::{Subjects, Text};
use crate::pools;
use crate::tally::{Family, Tally};
use compare::lists::Line;
use compare::model_move::MOST_SUBJECTS;

/// So many subjects are routed, each to another panel.
const ROUTED: usize = 2 * MOST_SUBJECTS + 2;

/// Numbers of subjects that are far too many, though by their last 8 or 16 bits some would not be.
const TOO_MANY: [usize; 6] = [255, 256, 257, 256 + 64, 65_536, 65_536 + 1];

/// Numbers of subjects with one at each place that is not routed.
const COUNTS: [usize; 7] = [1, 2, 3, 63, 64, 65, 66];

/// Two that are not routed stand at any two places of so many, and at any two of some places of 64.
const FEW: usize = 8;
const PLACES: [usize; 5] = [0, 1, 31, 62, 63];

/// Subjects that are not routed, but for the last two: one of these lies outside the bytes, and the walk of the other may be damaged.
const OTHERS: [Text; 5] = [
    Text::Lent(b"yard.north.points.0"),
    Text::Lent(b"yard.south.points.0.set"),
    Text::Lent(b"yard.south.points.0"),
    Text::Behind(b"yard.north.points.0.set"),
    WEST,
];
const WEST: Text = Text::Lent(b"yard.west");

/// The table, the same with a damage, subjects that are routed, and texts that are refused.
struct Sizes {
    sound: Ground,
    damaged: Ground,
    routed: Vec<Vec<u8>>,
    refused: Vec<Vec<u8>>,
}

fn routed(number: usize) -> Vec<u8> {
    format!("yard.north.points.{number}.set").into_bytes()
}

impl Sizes {
    fn new(tally: &mut Tally) -> Sizes {
        let routed: Vec<Vec<u8>> = (0..ROUTED).map(routed).collect();
        let others = [
            ("yard.south.>", 1),
            ("yard.south.points.*.set", 2),
            ("yard.south.points.*.set", 3),
            ("yard.west", 4),
        ];
        let mut all: Vec<Line> = routed.iter().cloned().zip(1_000..).collect();
        all.extend(lines(&others));
        let sound = Ground::built(tally, &all);
        let damaged = sound.changed(|ground| {
            let west = ground.node("yard.west");
            *ground.word(west, 4) = u32::MAX;
        });
        Sizes {
            sound,
            damaged,
            routed,
            refused: pools::refused_texts(),
        }
    }

    /// One subject for each way to end a move.
    fn others(&self) -> Vec<Text<'_>> {
        let refused = self.refused.iter().map(|text| Text::Lent(text));
        refused.chain(OTHERS).collect()
    }

    /// The table for a move with these others.
    fn ground(&self, others: &[Text]) -> &Ground {
        if others.contains(&WEST) {
            &self.damaged
        } else {
            &self.sound
        }
    }

    /// So many routed subjects.
    fn texts(&self, count: usize) -> Vec<Text<'_>> {
        let texts = self.routed[..count].iter();
        texts.map(|text| Text::Lent(text)).collect()
    }

    /// All subjects are routed, in their order and the other way round; and the same where the counts do not fit.
    fn whole(&self, tally: &mut Tally) {
        let no_table = self.sound.changed(|ground| ground.snapshot.nodes = 0);
        for count in 0..=ROUTED {
            let mut texts = self.texts(count);
            for turned in [false, true] {
                if turned {
                    texts.reverse();
                }
                let subjects = Subjects::packed(&texts);
                let odd = subjects.clone().with_odd_number();
                for subjects in [subjects, odd] {
                    self.sound.calls(tally, &subjects);
                    self.sound.call(tally, &subjects, 0);
                    no_table.call(tally, &subjects, count);
                }
            }
        }
        for count in TOO_MANY {
            let texts = vec![Text::Lent(&self.routed[0]); count];
            self.sound.calls(tally, &Subjects::packed(&texts));
        }
        let part = format!("moves of 0 to {ROUTED} routed subjects, and of many more");
        tally.report(Family::Moves, &part);
    }

    /// All are routed but for one, at each place.
    fn one(&self, tally: &mut Tally) {
        for count in COUNTS {
            for place in 0..count {
                for other in self.others() {
                    let ground = self.ground(&[other]);
                    let mut texts = self.texts(count);
                    texts[place] = other;
                    let subjects = Subjects::packed(&texts);
                    ground.calls(tally, &subjects);
                    ground.call(tally, &subjects.with_odd_number(), count);
                }
            }
        }
        let part = "moves of about 64 subjects with one at each place that is not routed";
        tally.report(Family::Moves, part);
    }

    /// All are routed but for those at two places.
    fn two(&self, tally: &mut Tally, count: usize, places: [usize; 2]) {
        for one in self.others() {
            for other in self.others() {
                let mut texts = self.texts(count);
                texts[places[0]] = one;
                texts[places[1]] = other;
                let subjects = Subjects::packed(&texts);
                for length in [0, count] {
                    self.ground(&[one, other]).call(tally, &subjects, length);
                }
            }
        }
    }

    fn twos(&self, tally: &mut Tally) {
        for later in 0..FEW {
            for earlier in 0..later {
                self.two(tally, FEW, [earlier, later]);
            }
        }
        for (later, &place) in PLACES.iter().enumerate() {
            for &earlier in &PLACES[..later] {
                self.two(tally, MOST_SUBJECTS, [earlier, place]);
            }
        }
        let part = "moves of 8 and 64 subjects with two that are not routed";
        tally.report(Family::Moves, part);
    }
}

pub fn run(tally: &mut Tally) {
    let sizes = Sizes::new(tally);
    sizes.whole(tally);
    sizes.one(tally);
    sizes.twos(tally);
}
