//! Marks written out, and all marks that a slot can have.
use super::hand::{ask, filled, Ground};
use crate::tally::{shown, Family, Tally};
use compare::model_cache::{Head, Way};
use compare::model_mark::mark;
use compare::random::Random;
use router::limits::KEY_BYTES;
use router::raw::{self, CacheState, SnapshotState};

/// Marks worked out apart from this program.
const ROWS: [(&str, u16); 8] = [
    ("a", 0xb37f),
    ("a.b", 0xfc49),
    ("a.b.c.d", 0xa0d6),
    ("yard.nor", 0xbdd6),
    ("yard.nort", 0x0cfe),
    ("yard.north.poin", 0x24fc),
    ("yard.north.points.17.set", 0xfa25),
    ("yard.west.gleis-ä.weiche-ö.stellung", 0x9ae1),
];
const LONGEST: ([u8; KEY_BYTES], u16) = ([b'x'; KEY_BYTES], 0xa8b9);

const SUBJECT: &[u8] = b"yard.north.points.17.set";

/// The mark that a resolve leaves in a cache of one slot. The table has no lines.
fn left(subject: &[u8]) -> u16 {
    let (mut stamps, mut keys, mut kept) = ([0], [0; 260], [0; 16]);
    let snapshot = SnapshotState {
        nodes: 1,
        ..SnapshotState::default()
    };
    let fresh = CacheState::fresh(1);
    let (area, out) = (&[0; 16], &mut []);
    raw::resolve(
        fresh,
        &mut stamps,
        &mut keys,
        &mut kept,
        snapshot,
        area,
        subject,
        out,
    );
    u16::from_le_bytes([keys[2], keys[3]])
}

fn rows(tally: &mut Tally) {
    let rows = ROWS.iter().map(|(text, due)| (text.as_bytes(), *due));
    for (text, due) in rows.chain([(&LONGEST.0[..], LONGEST.1)]) {
        let inputs = || shown(&[text]);
        tally.compare_on("the mark that a resolve leaves", inputs, left(text), due);
        tally.compare_on("the model's mark", inputs, mark(text), due);
    }
    tally.report(Family::Calls, "marks written out");
}

/// A slot that has the subject's bytes, with every mark: one of them is the subject's.
fn every_mark(tally: &mut Tally, random: &mut Random, ground: &Ground) {
    let mut cache = filled(random, 1, 1, 1);
    let mut hits = Vec::new();
    for own in 0..=u16::MAX {
        let head = Head {
            mark: own,
            ..Head::of(SUBJECT, 3)
        };
        cache.slots.put(1, 0, head, SUBJECT);
        let mut cabinet = ground.cabinet(cache.clone(), "");
        if ask(tally, random, &mut cabinet, SUBJECT) == Way::Hit {
            hits.push(own);
        }
    }
    let inputs = || shown(&[SUBJECT]);
    tally.compare_on("the marks that hit", inputs, hits, vec![mark(SUBJECT)]);
    let part = "one slot with the subject's bytes and each of the 65,536 marks";
    tally.report(Family::Calls, part);
}

pub fn run(tally: &mut Tally, random: &mut Random, ground: &Ground) {
    rows(tally);
    every_mark(tally, random, ground);
}
