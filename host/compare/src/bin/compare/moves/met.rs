//! What whole moves must bring up, each at least once: every way to end one, at each place of the shortest and the longest lists.
use crate::met::Met;
use compare::model_move::{Due, MOST_SUBJECTS};

/// Why a subject ends a move.
#[derive(Clone, Copy, Debug, PartialEq, Eq, PartialOrd, Ord)]
pub enum End {
    /// 12, or its own refusal.
    Refusal(u64),
    /// 19 in its walk.
    Damage,
    /// A verdict of this kind.
    Verdict(u64),
}

impl End {
    fn name(self) -> String {
        match self {
            End::Refusal(number) => format!("refused as {number}"),
            End::Damage => "refused as 19 in a walk".into(),
            End::Verdict(0) => "stopped by NoStream".into(),
            End::Verdict(_) => "stopped by Ambiguous".into(),
        }
    }
}

/// What a move of so many subjects came to.
#[derive(Clone, Copy, Debug, PartialEq, Eq, PartialOrd, Ord)]
pub enum Event {
    /// The subject at a place ends it.
    Ended {
        end: End,
        place: usize,
        count: usize,
    },
    /// The standing table's counts do not fit.
    NoTable {
        count: usize,
    },
    TooLarge {
        count: usize,
    },
    /// All are routed, and the output has so many places: too few, or not.
    Output {
        count: usize,
        places: usize,
    },
}

/// No subject is refused as 4.
const ENDS: [End; 12] = [
    End::Refusal(1),
    End::Refusal(2),
    End::Refusal(3),
    End::Refusal(5),
    End::Refusal(6),
    End::Refusal(7),
    End::Refusal(8),
    End::Refusal(9),
    End::Refusal(12),
    End::Damage,
    End::Verdict(0),
    End::Verdict(2),
];

/// Moves of so many subjects must end at each of their places.
const COUNTS: [usize; 4] = [1, 2, MOST_SUBJECTS - 1, MOST_SUBJECTS];

impl Event {
    /// What a move of so many subjects came to, with an output of so many places.
    pub fn new(due: &Due, count: usize, places: usize) -> Event {
        let (end, place) = match *due {
            Due::TooLarge => return Event::TooLarge { count },
            Due::NoTable => return Event::NoTable { count },
            Due::Short { .. } | Due::Routed(_) => return Event::Output { count, places },
            Due::Outside { place } => (End::Refusal(12), place),
            Due::Refused { place, refusal } => (End::Refusal(refusal.number), place),
            Due::Damaged { place } => (End::Damage, place),
            Due::Stopped { place, kind, .. } => (End::Verdict(kind), place),
        };
        Event::Ended { end, place, count }
    }
}

fn ended(end: End) -> Vec<Event> {
    let mut all = Vec::new();
    for count in COUNTS {
        all.extend((0..count).map(|place| Event::Ended { end, place, count }));
    }
    all
}

/// Every number of subjects, with no place, one place too few, as many as needed, and one more.
fn outputs() -> Vec<Event> {
    let places = |count: usize| [0, count.saturating_sub(1), count, count + 1];
    let output = |count| places(count).map(|places| Event::Output { count, places });
    (0..=MOST_SUBJECTS).flat_map(output).collect()
}

/// Prints what came up. What never did, though it must.
pub fn report(met: &Met<Event>) -> Vec<String> {
    let mut missing = Vec::new();
    for end in ENDS {
        let call = format!("{} {}", super::NAME, end.name());
        let about = "places of 1, 2, 63 and 64 subjects";
        missing.extend(met.report(&call, about, ended(end)));
    }
    let no_table = (0..=MOST_SUBJECTS).map(|count| Event::NoTable { count });
    let too_large = (1..=2).map(|more| Event::TooLarge {
        count: MOST_SUBJECTS + more,
    });
    let others = [
        (
            "numbers of subjects, refused as 19 on the counts",
            no_table.collect(),
        ),
        ("numbers of subjects, refused as 22", too_large.collect()),
        (
            "numbers of routed subjects and lengths of an output, refused as 21 or written",
            outputs(),
        ),
    ];
    for (about, events) in others {
        missing.extend(met.report(super::NAME, about, events));
    }
    missing
}
