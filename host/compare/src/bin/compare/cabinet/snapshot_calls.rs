//! Calls on the snapshot.
use super::{made_there, Cabinet, Call};
use crate::moves::{self, Subjects};
use crate::seen;
use crate::tables::fresh_words;
use crate::tally::Tally;
use compare::area::Words;
use compare::model_snapshot::{self, answer, state_after};
use compare::{model_binding, original_calls};
use oracle::sublist::Sublist;
use router::raw::{self, Answer};

impl Cabinet {
    /// A store of a table, the original's being the same. Whether it was accepted.
    pub fn store(
        &mut self,
        tally: &mut Tally,
        table: Words,
        generation: u64,
        original: impl FnOnce() -> Sublist<u32>,
    ) -> bool {
        let (nodes, targets) = (table.nodes, table.targets);
        self.calls.push(Call::Store { nodes, targets });
        self.meet();
        let due = model_snapshot::store(self.due.snapshot, table, &mut self.due.area);
        let ours = raw::store(
            self.ours.snapshot,
            table.nodes,
            table.targets,
            generation,
            table.node_words,
            table.target_words,
            &mut self.ours.area,
        );
        self.same(tally, "store", ours, due);
        self.same_area(tally);
        tally.called("store", due.number);
        self.due.snapshot = state_after(due);
        self.ours.snapshot = state_after(ours);
        let accepted = due.number == 0;
        if accepted && due.next == 0 {
            tally.seen.way(seen::COUNTER_WRAPPED);
        }
        if let Some(theirs) = self.theirs.as_mut().filter(|_| accepted) {
            let stamped = theirs.store(original());
            self.same(tally, "the original's stamp", due.stamped, stamped);
        }
        self.same_snapshot(tally);
        accepted
    }

    /// What the original's snapshot tells of its table.
    pub fn same_snapshot(&self, tally: &mut Tally) {
        if let Some(theirs) = &self.theirs {
            let table = theirs.snapshot.load();
            let due = (table.generation(), table.node_count());
            let state = self.ours.snapshot;
            let ours = (state.generation, state.nodes);
            self.same(tally, "the original's table", ours, due);
        }
    }

    /// A match. The peak and the list that it should give, if it is accepted.
    pub fn match_into(
        &mut self,
        tally: &mut Tally,
        subject: &[u8],
        places: usize,
    ) -> Option<(u64, Vec<u32>)> {
        let call = Call::asked("snapshot_match", None, subject, places);
        self.calls.push(call);
        self.meet();
        let (mut out, mut out_due) = (fresh_words(places), fresh_words(places));
        let (state, area) = (self.due.snapshot, &self.due.area);
        let due = model_snapshot::match_into(state, area, subject, &mut out_due);
        let ours = raw::snapshot_match(self.ours.snapshot, &self.ours.area, subject, &mut out);
        self.same(tally, "snapshot_match", ours, due);
        self.same_words(tally, "its output", &out, &out_due);
        tally.called("snapshot_match", due.number);
        if due.accepted() {
            out_due.truncate(due.first as usize);
        }
        self.match_theirs(tally, subject, due, &out_due);
        if due.number == 21 {
            self.same_length(tally, subject, places, due.first);
        }
        due.accepted().then_some((due.second, out_due))
    }

    fn match_theirs(&self, tally: &mut Tally, subject: &[u8], mut due: Answer, list: &[u32]) {
        let Some(theirs) = self.theirs.as_ref().filter(|_| made_there(due.number)) else {
            return;
        };
        let mut their_list = Vec::new();
        let told = original_calls::match_into(&theirs.snapshot, subject, &mut their_list);
        if due.accepted() {
            due.second = 0;
            self.same(tally, "the original's list", list, &their_list);
        }
        self.same(tally, "the original's match", due, told);
    }

    /// The length that 21 names, which is the original's and more than the places of the output.
    pub fn same_length(&self, tally: &mut Tally, subject: &[u8], places: usize, named: u64) {
        if let Some(theirs) = &self.theirs {
            let found = original_calls::match_into(&theirs.snapshot, subject, &mut Vec::new());
            let too_long = named > places as u64;
            self.same(
                tally,
                "the length named",
                (named, too_long),
                (found.first, true),
            );
        }
    }

    /// A verdict without a cache. The peak that it should give, if it is accepted.
    pub fn home(&mut self, tally: &mut Tally, subject: &[u8], places: usize) -> Option<u64> {
        let call = Call::asked("resolve_single_home", None, subject, places);
        self.calls.push(call);
        self.meet();
        let (mut out, mut out_due) = (fresh_words(places), fresh_words(places));
        let (state, area) = (self.due.snapshot, &self.due.area);
        let due = model_binding::resolve_single_home(state, area, subject, &mut out_due);
        let ours = raw::resolve_single_home(self.ours.snapshot, &self.ours.area, subject, &mut out);
        self.same(tally, "resolve_single_home", ours, due);
        self.same_words(tally, "its output", &out, &out_due);
        tally.called("resolve_single_home", due.number);
        if let Some(theirs) = self.theirs.as_ref().filter(|_| made_there(due.number)) {
            let told = original_calls::resolve_single_home(&theirs.snapshot, subject);
            let verdict = answer(due.number, &[due.kind as usize, due.value as usize]);
            self.same(tally, "the original's verdict", verdict, told);
        }
        if due.number == 21 {
            self.same_length(tally, subject, places, due.kind);
        }
        if due.number != 0 {
            return None;
        }
        tally.seen.way(seen::VERDICTS[due.kind as usize]);
        Some(due.peak)
    }

    /// A whole move. It changes nothing of the snapshot and its area.
    pub fn whole_move(&mut self, tally: &mut Tally, subjects: Subjects, places: usize) {
        self.meet();
        let asked = subjects.asked(self.ours.snapshot, &self.ours.area);
        let theirs = self.theirs.as_ref().map(|theirs| &theirs.snapshot);
        moves::call(tally, asked, places, theirs, || self.shown());
        self.same_area(tally);
        self.calls.push(Call::Moved { subjects, places });
    }
}
