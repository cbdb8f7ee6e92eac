//! Calls of the original, each recorded with what it answers.
//!
//! | kind | call | from 10 on |
//! |---|---|---|
//! | 1 | `Subject::parse_literal` | the text |
//! | 2 | `SubjectPattern::parse` | the text |
//! | 3 | `SubjectPattern::matches` | the pattern with its length, the subject |
//! | 4 | `single_home` | the list |
//! | 5 | `SublistBuilder::new` | |
//! | 6 | `SublistBuilder::insert` | the target, the pattern |
//! | 7 | `SublistBuilder::build` | the generation |
//! | 8 | `Sublist::match_into` | the list, the subject |
//! | 9 | `SublistSnapshot::new`, of the table built last | the generation afterwards |
//! | 10 | `SublistSnapshot::empty` | the generation afterwards |
//! | 11 | `SublistSnapshot::store`, of the table built last | the generation stamped, the one afterwards |
//! | 12 | `SublistSnapshot::match_into` | the generation (0 if refused), the list, the subject |
//! | 13 | `resolve_single_home` | the subject |
//! | 14 | `ResolveCache::with_capacity` | the cache, the capacity asked for |
//! | 15 | `ResolveCache::clear` | the cache |
//! | 16 | `ResolveCache::resolve` | the cache, the list, the subject |
//! | 17 | `resolve_single_home_cached` | the cache, the subject |
//!
//! The cache is a byte, 0 or 1 for which one, and then, as the call left it: the subjects kept (a word), the walks and the generation (numbers).
//! Values of an answer 0: the token count; 1 or 0 for a match; the node count; the length of a list; the capacity; or the kind of a verdict
//! (0 NoStream, 1 Routed, 2 Ambiguous) and its target or length. Those of a refusal are the scope document's.
use crate::recording::{Answer, Record, Recording};
use oracle::binding::{resolve_single_home, resolve_single_home_cached, single_home, Resolution};
use oracle::resolve_cache::ResolveCache;
use oracle::subject::{Subject, SubjectError, SubjectPattern};
use oracle::sublist::{Sublist, SublistBuilder, SublistError, SublistSnapshot};

const DONE: Answer = Answer(0, 0, 0);

fn word(number: usize) -> u32 {
    u32::try_from(number).expect("counts are small")
}

fn refusal(e: SubjectError) -> Answer {
    match e {
        SubjectError::Empty => Answer(3, 0, 0),
        SubjectError::TailWildcardNotLast { index } => Answer(4, word(index), 0),
        SubjectError::TooDeep { depth } => Answer(5, word(depth), 0),
        SubjectError::EmptyToken { index } => Answer(6, word(index), 0),
        SubjectError::WildcardNotAllowed { ch, index } => Answer(7, ch.into(), word(index)),
        SubjectError::ControlChar { ch, index } => Answer(8, ch.into(), word(index)),
        SubjectError::IllegalChar { ch, index } => Answer(9, ch.into(), word(index)),
        e => panic!("a refusal of the original without a number: {e}"),
    }
}

fn answer(result: Result<usize, SubjectError>) -> Answer {
    result.map_or_else(refusal, |value| Answer(0, word(value), 0))
}

fn verdict(resolution: Resolution<u32>) -> Answer {
    match resolution {
        Resolution::NoStream => Answer(0, 0, 0),
        Resolution::Routed(target) => Answer(0, 1, target),
        Resolution::Ambiguous { matched } => Answer(0, 2, word(matched)),
    }
}

/// The original's state, and the recording.
pub struct Calls {
    recording: Recording,
    builder: SublistBuilder<u32>,
    table: Option<Sublist<u32>>,
    snapshot: SublistSnapshot<u32>,
    caches: [ResolveCache<u32>; 2],
}

impl Calls {
    pub fn new() -> Calls {
        Calls {
            recording: Recording::default(),
            builder: SublistBuilder::new(),
            table: None,
            snapshot: SublistSnapshot::empty(),
            caches: [ResolveCache::new(), ResolveCache::new()],
        }
    }

    pub fn recording(&self) -> &Recording {
        &self.recording
    }

    /// A text as a subject and as a pattern.
    pub fn text(&mut self, text: &str) {
        let subject = answer(Subject::parse_literal(text).map(|s| s.depth()));
        self.recording.add(Record::new(1, subject).last(text));
        let pattern = answer(SubjectPattern::parse(text).map(|p| p.depth()));
        self.recording.add(Record::new(2, pattern).last(text));
    }

    pub fn matches(&mut self, pattern: &str, subject: &str) {
        let call = || {
            let pattern = SubjectPattern::parse(pattern)?;
            Ok(pattern.matches(&Subject::parse_literal(subject)?).into())
        };
        let record = Record::new(3, answer(call()));
        self.recording.add(record.text(pattern).last(subject));
    }

    pub fn single_home(&mut self, list: &[u32]) {
        let record = Record::new(4, verdict(single_home(list)));
        self.recording.add(record.list(list));
    }

    pub fn new_list(&mut self) {
        self.builder = SublistBuilder::new();
        self.recording.add(Record::new(5, DONE));
    }

    pub fn insert(&mut self, pattern: &str, target: u32) {
        let done = self.builder.insert(pattern, target);
        let record = Record::new(6, done.map_or_else(refusal, |()| DONE));
        self.recording.add(record.word(target).last(pattern));
    }

    /// The table of the list; a refused build leaves none.
    pub fn build(&mut self, generation: u64) {
        let built = self.builder.build(generation);
        let answer = match &built {
            Ok(table) => Answer(0, word(table.node_count()), 0),
            Err(SublistError::ForkLimitExceeded { worst_case, limit }) => {
                Answer(16, word(*worst_case), word(*limit))
            }
            Err(e) => panic!("a refusal of the original without a number: {e}"),
        };
        self.table = built.ok();
        self.recording
            .add(Record::new(7, answer).number(generation));
    }

    fn table(&self) -> &Sublist<u32> {
        self.table.as_ref().expect("a table is built first")
    }

    /// Hands the table over: after it none is left.
    fn take_table(&mut self) -> Sublist<u32> {
        self.table.take().expect("a table is built first")
    }

    pub fn match_table(&mut self, subject: &str) {
        let mut list = Vec::new();
        let length = Subject::parse_literal(subject).map(|s| {
            self.table().match_into(&s, &mut list);
            list.len()
        });
        let record = Record::new(8, answer(length));
        self.recording.add(record.list(&list).last(subject));
    }

    pub fn new_snapshot(&mut self) {
        self.snapshot = SublistSnapshot::new(self.take_table());
        let record = Record::new(9, DONE);
        self.recording
            .add(record.number(self.snapshot.generation()));
    }

    pub fn empty_snapshot(&mut self) {
        self.snapshot = SublistSnapshot::empty();
        let record = Record::new(10, DONE);
        self.recording
            .add(record.number(self.snapshot.generation()));
    }

    pub fn store(&mut self) {
        let table = self.take_table();
        let stamped = self.snapshot.store(table);
        let record = Record::new(11, DONE).number(stamped);
        self.recording
            .add(record.number(self.snapshot.generation()));
    }

    pub fn match_snapshot(&mut self, subject: &str) {
        let mut list = Vec::new();
        let mut generation = 0;
        let length = Subject::parse_literal(subject).map(|s| {
            generation = self.snapshot.match_into(&s, &mut list);
            list.len()
        });
        let record = Record::new(12, answer(length)).number(generation);
        self.recording.add(record.list(&list).last(subject));
    }

    pub fn verdict(&mut self, subject: &str) {
        let resolution = Subject::parse_literal(subject)
            .map(|subject| resolve_single_home(&self.snapshot, &subject));
        let record = Record::new(13, resolution.map_or_else(refusal, verdict));
        self.recording.add(record.last(subject));
    }

    /// A record of a call on a cache, with the cache as it was left.
    fn on_cache(&self, kind: u8, answer: Answer, which: usize) -> Record {
        let cache = &self.caches[which];
        Record::new(kind, answer)
            .small(which as u8)
            .word(word(cache.len()))
            .number(cache.walk_count())
            .number(cache.generation())
    }

    pub fn new_cache(&mut self, which: usize, capacity: usize) {
        self.caches[which] = ResolveCache::with_capacity(capacity);
        let answer = Answer(0, word(self.caches[which].capacity()), 0);
        let record = self.on_cache(14, answer, which);
        self.recording.add(record.word(word(capacity)));
    }

    pub fn clear(&mut self, which: usize) {
        self.caches[which].clear();
        let record = self.on_cache(15, DONE, which);
        self.recording.add(record);
    }

    pub fn resolve(&mut self, which: usize, subject: &str) {
        let mut list = Vec::new();
        let length = Subject::parse_literal(subject).map(|subject| {
            list = self.caches[which].resolve(&self.snapshot, &subject);
            list.len()
        });
        let record = self.on_cache(16, answer(length), which);
        self.recording.add(record.list(&list).last(subject));
    }

    pub fn cached_verdict(&mut self, which: usize, subject: &str) {
        let cache = &mut self.caches[which];
        let resolution = Subject::parse_literal(subject)
            .map(|subject| resolve_single_home_cached(cache, &self.snapshot, &subject));
        let answer = resolution.map_or_else(refusal, verdict);
        let record = self.on_cache(17, answer, which);
        self.recording.add(record.last(subject));
    }
}
