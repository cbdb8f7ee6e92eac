//! Calls on a cache.
use super::{made_there, Cabinet, Call, Side};
use crate::copies::{ByteCall, Odd};
use crate::seen;
use crate::sights::Sights;
use crate::tables::fresh_words;
use crate::tally::Tally;
use crate::theirs::{Scope, Theirs};
use compare::model_binding;
use compare::model_cache::{self, list_of, state_after, Stage, Way};
use compare::model_snapshot::answer;
use compare::original_calls;
use router::limits::{KEY_BYTES, SLOT_TARGETS};
use router::raw::{self, Answer, CacheState, Resolved};

/// What is asked of a cache.
#[derive(Clone, Copy)]
pub struct Ask<'a> {
    pub on: usize,
    pub subject: &'a [u8],
    pub places: usize,
}

/// A resolve for its list, or for the verdict on it.
#[derive(Clone, Copy, PartialEq, Eq)]
pub enum Form {
    List,
    Verdict,
}

/// What a resolve came upon and came to, and the cache's state before it.
struct Came {
    before: CacheState,
    sights: Sights,
    due: Resolved,
    way: Way,
}

impl Form {
    fn name(self) -> &'static str {
        match self {
            Form::List => "resolve",
            Form::Verdict => "resolve_single_home_cached",
        }
    }

    fn by_router(self, side: &mut Side, ask: Ask, out: &mut [u32]) -> Resolved {
        let call = match self {
            Form::List => raw::resolve,
            Form::Verdict => raw::resolve_single_home_cached,
        };
        let cache = &mut side.caches[ask.on];
        let slots = &mut cache.slots;
        call(
            cache.state,
            &mut slots.stamps,
            &mut slots.keys,
            &mut slots.kept,
            side.snapshot,
            &side.area,
            ask.subject,
            out,
        )
    }

    /// The original's answer: the length of the list, which is put into `list`, or the verdict.
    fn by_original(self, theirs: &mut Theirs, ask: Ask, list: &mut Vec<u32>) -> Answer {
        let (cache, snapshot) = (&mut theirs.caches[ask.on], &theirs.snapshot);
        match self {
            Form::List => original_calls::resolve(cache, snapshot, ask.subject, list),
            Form::Verdict => {
                original_calls::resolve_single_home_cached(cache, snapshot, ask.subject)
            }
        }
    }

    /// The length of the list behind an accepted answer of the original. A verdict of kind 0 or 1 is on a list of that length.
    fn length(self, told: Answer) -> u64 {
        match self {
            Form::Verdict if told.first == 2 => told.second,
            _ => told.first,
        }
    }

    fn by_definition(self, side: &mut Side, ask: Ask, out: &mut [u32]) -> (Resolved, Way) {
        let call = match self {
            Form::List => model_cache::resolve,
            Form::Verdict => model_binding::resolve_single_home_cached,
        };
        let cache = &mut side.caches[ask.on];
        let slots = &mut cache.slots;
        call(
            cache.state,
            slots,
            side.snapshot,
            &side.area,
            ask.subject,
            out,
        )
    }
}

impl Cabinet {
    pub fn clear(&mut self, tally: &mut Tally, on: usize) {
        self.calls.push(Call::Clear { on });
        let before = self.due.caches[on].state;
        let due = model_cache::clear(before);
        let ours = raw::cache_clear(self.ours.caches[on].state);
        self.same(tally, "clear", ours, due);
        self.due.caches[on].state = due;
        self.ours.caches[on].state = ours;
        if let Some(theirs) = &mut self.theirs {
            theirs.caches[on].clear();
        }
        self.same_slots(tally, on);
        self.same_numbers(tally, on);
        tally.called("cache_clear", 0);
        if before.used > 0 {
            tally.seen.way(seen::CLEARED);
        }
    }

    /// A resolve; with `odd` also one on bytes, on the same contents. What it came to, and the list if that was asked for and given.
    pub fn resolve(
        &mut self,
        tally: &mut Tally,
        form: Form,
        ask: Ask,
        odd: Option<Odd>,
    ) -> (Way, Option<Vec<u32>>) {
        let call = Call::asked(form.name(), Some(ask.on), ask.subject, ask.places);
        self.calls.push(call);
        self.meet();
        let (mut out, mut out_due) = (fresh_words(ask.places), fresh_words(ask.places));
        let bytes = odd.map(|odd| ByteCall::make(&self.ours, ask.on, ask.subject, &out, odd));
        let cache = &self.due.caches[ask.on];
        let sights = Sights::new(cache, self.due.snapshot.generation, ask.subject);
        let before = cache.state;
        let (due, way) = form.by_definition(&mut self.due, ask, &mut out_due);
        let ours = form.by_router(&mut self.ours, ask, &mut out);
        self.same(tally, form.name(), ours, due);
        self.same_slots(tally, ask.on);
        self.same_words(tally, "its output", &out, &out_due);
        tally.called(form.name(), due.number);
        if let Some(bytes) = bytes {
            self.same_bytes(tally, ask.on, bytes, ours, &out);
        }
        self.due.caches[ask.on].state = state_after(&due);
        self.ours.caches[ask.on].state = state_after(&ours);
        let came = Came {
            before,
            sights,
            due,
            way,
        };
        self.count(tally, form, ask, came);
        let listed = due.number == 0 && form == Form::List;
        let kept = &self.due.caches[ask.on].slots.kept;
        let list = listed.then(|| list_of(&due, kept, &out_due).to_vec());
        self.resolve_theirs(tally, form, ask, due, list.as_deref());
        (way, list)
    }

    /// The call on bytes against the one on numbers.
    fn same_bytes(
        &self,
        tally: &mut Tally,
        on: usize,
        bytes: ByteCall,
        told: Resolved,
        out: &[u32],
    ) {
        let (due, left) = bytes.due(told, &self.ours.caches[on].slots, out);
        self.same(tally, "resolve_bytes", bytes.told, due);
        self.same(tally, "the bytes that it leaves", &bytes.left, &left);
        tally.called("resolve_bytes", due.number);
    }

    /// The same resolve on the original's side, compared as far as it may be.
    fn resolve_theirs(
        &mut self,
        tally: &mut Tally,
        form: Form,
        ask: Ask,
        due: Resolved,
        list: Option<&[u32]>,
    ) {
        let Some(theirs) = self.theirs.as_mut().filter(|_| made_there(due.number)) else {
            self.needed(tally, ask.subject, ask.places, due);
            return;
        };
        let mut their_list = Vec::new();
        let told = form.by_original(theirs, ask, &mut their_list);
        let mut values = [due.first as usize, due.second as usize];
        if due.number == 0 && told.accepted() {
            let over = ask.subject.len() > KEY_BYTES || form.length(told) > SLOT_TARGETS as u64;
            let scope = theirs.scope(ask.on, over);
            tally.seen.way(seen::scope(scope));
            if scope == Scope::Nothing {
                return;
            }
            if let Some(list) = list {
                values = [list.len(), 0];
                self.same(tally, "the original's list", list, &their_list);
            }
        }
        let due = answer(due.number, &values);
        self.same(tally, "the original's resolve", due, told);
        self.same_numbers(tally, ask.on);
    }

    /// The length that 21 names, which is the original's unless the cache may hold a list of another table.
    fn needed(&self, tally: &mut Tally, subject: &[u8], places: usize, due: Resolved) {
        if due.number == 21 && !self.may_be_stale() {
            self.same_length(tally, subject, places, due.first);
        }
    }
}

impl Cabinet {
    /// Counts what a resolve came to.
    fn count(&self, tally: &mut Tally, form: Form, ask: Ask, came: Came) {
        let Came {
            before,
            sights,
            due,
            way,
        } = came;
        let ways = seen::ways(way, ask.subject, due.capacity);
        for way in ways.into_iter().chain(sights.ways(way)) {
            tally.seen.way(way);
        }
        if way == Way::Refused(Stage::Walk) && before.generation != self.due.snapshot.generation {
            tally.seen.way(seen::NOT_ADOPTED);
        }
        if due.number == 0 {
            count_accepted(tally, form, before, due);
        }
    }
}

fn count_accepted(tally: &mut Tally, form: Form, before: CacheState, due: Resolved) {
    if due.generation != before.generation {
        let emptied = before.used > 0;
        let way = if emptied {
            seen::EMPTIED
        } else {
            seen::ADOPTED
        };
        tally.seen.way(way);
    }
    if due.tick == 0 {
        tally.seen.way(seen::TICK_WRAPPED);
    }
    if due.walks == 0 && before.walks != 0 {
        tally.seen.way(seen::WALKS_WRAPPED);
    }
    if form == Form::Verdict {
        tally.seen.way(seen::VERDICTS[due.first as usize]);
    }
}
