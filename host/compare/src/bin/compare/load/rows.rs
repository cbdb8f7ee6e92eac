//! Made texts that are written out, with the state behind each.
use super::met::MOST_LENT;
use super::start::Start;
use crate::tally::{Family, Tally};
use compare::made;
use compare::model_load::{Kind, MOST_BYTES};

/// A text, and the state behind it.
type Row = (&'static str, u64);

/// The first patterns from the start 1, each from the state behind the one before it.
const PATTERNS: [Row; 12] = [
    ("d.f.d.b", 0x860c_1fb0_9059_9265),
    ("*.b", 0xc62c_9fc1_14d9_590d),
    ("g.c.b.g", 0x4e2a_a10f_962c_62e6),
    ("g.h", 0xcf9d_3e05_e6ad_cf7b),
    ("d.b.*.c.h.e", 0x256b_6af8_a092_7da2),
    ("*.c", 0xf2b6_efee_45c9_7a9c),
    ("h.a", 0x528d_a223_7c72_f36a),
    ("c", 0xa93d_f44f_13c9_8814),
    ("a.e.a.f.e", 0x0990_7835_247c_3552),
    ("f", 0xa9bc_bccb_8ffd_700b),
    ("f.f.b.a.h.a", 0xfa48_cc3d_ff81_6802),
    ("*", 0x0f88_255c_41f7_fe86),
];

/// The first subjects from the start 1.
const SUBJECTS: [Row; 12] = [
    ("b.b.f.f", 0x860c_1fb0_9059_9265),
    ("b.f", 0xc62c_9fc1_14d9_590d),
    ("g.e.b.g", 0x4e2a_a10f_962c_62e6),
    ("e.d", 0xcf9d_3e05_e6ad_cf7b),
    ("b.h.e.a.b.c", 0x256b_6af8_a092_7da2),
    ("c.e", 0xf2b6_efee_45c9_7a9c),
    ("h.c", 0x528d_a223_7c72_f36a),
    ("e", 0xa93d_f44f_13c9_8814),
    ("a.e.g.f.c", 0x0990_7835_247c_3552),
    ("d", 0xa9bc_bccb_8ffd_700b),
    ("d.b.d.c.f.c", 0xfa48_cc3d_ff81_6802),
    ("g", 0x0f88_255c_41f7_fe86),
];

/// A start, and the pattern and the subject made from it, which take the same draws.
const BOTH: [(u64, &str, &str, u64); 11] = [
    (1 << 63, "*", "a", 0x8002_0000_0000_0000),
    (u64::MAX, ">", "h", 0x0fff_bffe_03fe_efff),
    (
        88_172_645_463_325_252,
        "d.a.b",
        "d.a.f",
        0xe409_3df8_432a_8be5,
    ),
    (1 << 32, "g", "a", 0x2410_1001_0004_0000),
    (1 << 48, "c.g.a.*.g", "a.a.a.a.a", 0xa723_d004_4010_0040),
    (10, ">", "h", 0xa002_8a3c_7800_8a8f),
    (29, "b.d.*.h.e.>", "d.f.a.h.g.f", 0xe249_b1ef_b3e3_e385),
    (55, "*.h.c.>", "e.h.a.f", 0xcb27_2710_c215_407d),
    (92, "*.*.>", "c.e.b", 0xbef7_996e_855d_2bd9),
    (153, "b.g.g.f.>", "f.a.e.d.b", 0x6bc0_1c1b_e698_2049),
    (200, "*.>", "e.b", 0x142d_90a6_926f_9681),
];

/// A text against one written out, and then as all others.
fn row(tally: &mut Tally, kind: Kind, start: u64, (text, behind): Row) {
    let mut out = [0; MOST_BYTES];
    let said = made::call(kind)(start, &mut out);
    let made = out.get(..said.value as usize).unwrap_or(&out);
    let ours = (said.number, String::from_utf8_lossy(made), said.state);
    let inputs = || format!("  {} from {start}\n", made::name(kind));
    let due = (0, text.into(), behind);
    tally.compare_on("a made text written out", inputs, ours, due);
    for length in 0..=MOST_LENT {
        Start::new(start).call(tally, kind, length);
    }
}

pub fn run(tally: &mut Tally) {
    for (kind, rows) in [(Kind::Pattern, PATTERNS), (Kind::Subject, SUBJECTS)] {
        let mut start = 1;
        for (text, behind) in rows {
            row(tally, kind, start, (text, behind));
            start = behind;
        }
    }
    for (start, pattern, subject, behind) in BOTH {
        row(tally, Kind::Pattern, start, (pattern, behind));
        row(tally, Kind::Subject, start, (subject, behind));
    }
    tally.report(Family::Made, "patterns and subjects written out");
}
