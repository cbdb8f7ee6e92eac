//! A state lent to the calls, and what is due for it.
use super::met::{choices, Event};
use crate::output::Output;
use crate::tally::Tally;
use compare::made;
use compare::model_load::{draws_by_bits, judge, make, token_count, Draws, Kind, Said};
use router::raw::MadeText;

pub struct Start {
    state: u64,
    draws: Draws,
}

impl Start {
    pub fn new(state: u64) -> Start {
        Start {
            state,
            draws: draws_by_bits(state),
        }
    }

    /// The tokens of a text made from it.
    pub fn token_count(&self) -> usize {
        token_count(&self.draws)
    }

    /// One call with an output of so many bytes: judged by the request's sentences, and compared with the model to the last byte. The state handed back.
    pub fn call(&self, tally: &mut Tally, kind: Kind, length: usize) -> u64 {
        let call = made::name(kind);
        let state = self.state;
        let inputs = || format!("  {call} from {state}, an output of {length} bytes\n");
        let mut out = Output::new(length);
        let ours = made::call(kind)(state, out.lent());
        let said = Said {
            made: ours,
            before: out.before(),
            after: out.after(),
        };
        let judged = judge(kind, state, &self.draws, &said);
        tally.compare_on("a made text by its sentences", inputs, judged, Ok(()));
        let (due, written) = make(kind, state, out.before());
        tally.compare_on(call, inputs, ours, due);
        let [after, due_after] = out.with_margins(&written);
        tally.compare_on("a made text's output", inputs, after, due_after);
        tally.called(call, due.number);
        self.met(tally, kind, due, length);
        due.state
    }

    /// What came up.
    fn met(&self, tally: &mut Tally, kind: Kind, due: MadeText, length: usize) {
        let met = &mut tally.seen.made;
        if due.number == 28 {
            return met.event((kind, Event::Zero { length }));
        }
        let bytes = due.value as usize;
        met.event((kind, Event::Output { bytes, length }));
        if due.number == 0 {
            let count = self.token_count();
            for place in 1..=count {
                let drawn = self.draws[place] % choices(kind);
                let token = Event::Token {
                    drawn,
                    place,
                    count,
                };
                met.event((kind, token));
            }
        }
    }
}
