//! Two patterns on all sides.
use crate::output::Output;
use crate::seen;
use crate::tally::{shown, Tally};
use compare::model_crossing::{judge, Due, Patterns, Said};
use compare::original::MAX_TEXT;
use compare::subjects_collide::subjects_collide;
use router::raw::{self, Answer};

/// Two patterns, and what is due for them.
pub struct Pair<'a> {
    pub patterns: Patterns<'a>,
    pub due: Due,
    /// Whether nats-server lets them collide.
    collide: bool,
}

impl<'a> Pair<'a> {
    pub fn new(patterns: Patterns<'a>) -> Pair<'a> {
        let [first, second] = patterns;
        Pair {
            patterns,
            due: Due::new(patterns),
            collide: subjects_collide(first, second),
        }
    }

    /// Lengths of outputs: around what is needed, and none.
    pub fn lengths(&self) -> Vec<usize> {
        match self.due.fewest() {
            Some(length) => vec![length + 1, length, length - 1, 0],
            None => vec![40, 0],
        }
    }

    /// Those, and around the most that can be needed.
    pub fn all_lengths(&self) -> Vec<usize> {
        let most = vec![5000, MAX_TEXT + 1, MAX_TEXT, MAX_TEXT - 1];
        [most, self.lengths()].concat()
    }

    /// All short subjects were tried, and this is the fewest bytes of one that both match.
    pub fn tried(&self, tally: &mut Tally, fewest: Option<usize>) {
        let inputs = || shown(&self.patterns);
        let model = self.due.fewest();
        tally.compare_on("the model's fewest bytes", inputs, model, fewest);
        tally.seen.way(seen::TRIED);
    }

    /// Calls with outputs of these lengths.
    pub fn calls(&self, tally: &mut Tally, lengths: impl IntoIterator<Item = usize>) {
        for length in lengths {
            self.call(tally, length, self.due.fewest());
        }
    }

    /// One call with an output of so many bytes: judged by the request's sentences, compared with the model to the last byte, and with nats-server's notion.
    /// `fewest` is the fewest bytes of a subject that both match.
    pub fn call(&self, tally: &mut Tally, length: usize, fewest: Option<usize>) {
        let [first, second] = self.patterns;
        let mut out = Output::new(length);
        let ours = raw::crossing(first, second, out.lent());
        let inputs = || format!("{}  an output of {length} bytes\n", shown(&self.patterns));
        let said = Said {
            answer: ours,
            before: out.before(),
            after: out.after(),
        };
        let judged = judge(self.patterns, fewest, &said);
        tally.compare_on("crossing by its sentences", inputs, judged, Ok(()));
        let (answer, written) = self.due.with_output(length);
        tally.compare_on("crossing", inputs, ours, answer);
        let [after, due] = out.with_margins(written);
        tally.compare_on("crossing's output", inputs, after, due);
        if let Some(collide) = self.collide() {
            let crosses = ours.number == 21 || ours.first == 1;
            tally.compare_on("nats-server's SubjectsCollide", inputs, crosses, collide);
        }
        self.met(tally, answer, length);
    }

    /// Whether two accepted patterns cross by nats-server's notion, but for the limit of 4,096 bytes, which it does not have.
    fn collide(&self) -> Option<bool> {
        match self.due {
            Due::Refused(..) => None,
            Due::TooLong(_) => Some(!self.collide),
            Due::Apart | Due::Shown(_) => Some(self.collide),
        }
    }

    /// What came up.
    fn met(&self, tally: &mut Tally, answer: Answer, length: usize) {
        let call = match self.due {
            Due::Refused(which, _) => seen::CROSSING_REFUSED[which],
            _ => seen::CROSSING,
        };
        tally.called(call, answer.number);
        for way in seen::crossing_ways(&self.due, length) {
            tally.seen.way(way);
        }
    }
}
