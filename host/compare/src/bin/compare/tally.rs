//! The comparisons themselves, and their count.
use crate::seen::Seen;
use compare::lists::Line;
use compare::model_snapshot::answer;
use compare::original;
use router::raw::{self, Answer};
use std::collections::BTreeMap;
use std::fmt::Debug;
use std::process::{exit, ExitCode};
use std::time::Duration;

/// The numbers that the inputs must bring up.
const NUMBERS: [u64; 25] = [
    0, 1, 2, 3, 4, 5, 6, 7, 8, 9, 10, 11, 12, 13, 14, 15, 16, 17, 18, 19, 20, 21, 22, 28, 99,
];

/// What comparisons are about.
#[derive(Clone, Copy)]
pub enum Family {
    Texts,
    Tables,
    Calls,
    Crossings,
    Made,
    Moves,
}

#[derive(Default)]
pub struct Tally {
    total: u64,
    reported: u64,
    /// Comparisons of each family.
    families: [u64; 6],
    answers: BTreeMap<u64, u64>,
    /// Matches of a pattern that were answered by no and by yes.
    verdicts: [u64; 2],
    /// Tables built, and matches on tables.
    pub builds: u64,
    pub matches: u64,
    pub largest_table: u64,
    pub largest_peak: u64,
    /// Calls on snapshots and caches, crossings, made texts, and whole moves.
    pub seen: Seen,
    /// The random part that is being made, and the seed of its turn.
    turn: Option<(&'static str, u64)>,
}

/// Says what differs and ends the run.
fn differs<T: Debug>(turn: Option<(&str, u64)>, call: &str, inputs: &str, ours: T, theirs: T) -> ! {
    eprintln!("{call} differs\n{inputs}  the router: {ours:?}\n  as it should be: {theirs:?}");
    if let Some((part, seed)) = turn {
        eprintln!("this turn again: compare --part {part} --turn {seed}");
    }
    exit(1)
}

pub fn shown(texts: &[&[u8]]) -> String {
    let line = |text: &&[u8]| format!("  on {text:02x?} \"{}\"\n", text.escape_ascii());
    texts.iter().map(line).collect()
}

fn shown_lines(lines: &[Line]) -> String {
    let line = |(pattern, target): &Line| format!("  {target} {}\n", pattern.escape_ascii());
    lines.iter().map(line).collect()
}

impl Tally {
    fn compare<T: PartialEq + Debug>(&mut self, call: &str, inputs: &[&[u8]], ours: T, theirs: T) {
        self.compare_on(call, || shown(inputs), ours, theirs);
    }

    fn compare_answers(&mut self, call: &str, inputs: &[&[u8]], ours: Answer, theirs: Answer) {
        self.compare(call, inputs, ours, theirs);
        self.met(theirs);
    }

    /// Compares two values; what they were got from is asked for where they differ.
    pub fn compare_on<T: PartialEq + Debug>(
        &mut self,
        call: &str,
        inputs: impl FnOnce() -> String,
        ours: T,
        theirs: T,
    ) {
        if ours != theirs {
            differs(self.turn, call, &inputs(), ours, theirs);
        }
        self.total += 1;
    }

    /// Compares two values got from a list of lines, and from a text.
    pub fn compare_list<T: PartialEq + Debug>(
        &mut self,
        call: &str,
        lines: &[Line],
        text: &[u8],
        ours: T,
        theirs: T,
    ) {
        let inputs = || shown_lines(lines) + &shown(&[text]);
        self.compare_on(call, inputs, ours, theirs);
    }

    /// An answer came up.
    pub fn met(&mut self, answer: Answer) {
        *self.answers.entry(answer.number).or_default() += 1;
    }

    /// A call on a snapshot or a cache, a crossing, the making of a text, or a whole move gave an answer of this number.
    pub fn called(&mut self, call: &'static str, number: u64) {
        *self.answers.entry(number).or_default() += 1;
        self.seen.answer(call, number);
    }

    /// A turn of a random part begins. A difference in it is reported with its seed.
    pub fn begin(&mut self, part: &'static str, seed: u64) {
        self.turn = Some((part, seed));
    }

    /// The turns are over.
    pub fn end(&mut self) {
        self.turn = None;
    }

    /// The comparisons so far.
    pub fn total(&self) -> u64 {
        self.total
    }

    /// A text as a subject and as a pattern, its depth, whether it ends in `>`, and its tokens.
    pub fn text(&mut self, text: &[u8]) {
        let inputs = [text];
        let ours = raw::parse_literal(text);
        self.compare_answers(
            "parse_literal",
            &inputs,
            ours,
            original::parse_literal(text),
        );
        self.compare_answers("parse", &inputs, raw::parse(text), original::parse(text));
        let (depth, tail) = original::depth_and_tail(text);
        self.compare("depth", &inputs, raw::depth(text), depth);
        let ours = raw::has_tail_wildcard(text);
        self.compare("has_tail_wildcard", &inputs, ours, tail);
        self.tokens(text);
    }

    /// Each token of a text, and that there is none behind the last.
    fn tokens(&mut self, text: &[u8]) {
        let mut count = 0;
        for (start, end) in original::tokens(text) {
            let theirs = answer(0, &[1, start, end]);
            self.compare("nth_token", &[text], raw::nth_token(text, count), theirs);
            count += 1;
        }
        for none in [count, usize::MAX] {
            let ours = raw::nth_token(text, none);
            self.compare("nth_token behind the last", &[text], ours, answer(0, &[]));
        }
    }

    /// A pattern against a subject.
    pub fn matching(&mut self, pattern: &[u8], subject: &[u8]) {
        let inputs = [pattern, subject];
        let theirs = original::matches(pattern, subject);
        self.compare_answers("matches", &inputs, raw::matches(pattern, subject), theirs);
        if theirs.accepted() {
            self.verdicts[theirs.first as usize] += 1;
        }
    }

    /// The hash of a token, as the original's table computes it.
    pub fn hash(&mut self, token: &[u8]) {
        let theirs = original::token_hash(token);
        self.compare("token_hash", &[token], raw::token_hash(token), theirs);
    }

    /// Says how many comparisons were made since the last report.
    pub fn report(&mut self, family: Family, part: &str) {
        println!("{:>12} comparisons: {part}", self.count(family));
    }

    /// How many comparisons were made since this was last asked. They belong to this family.
    pub fn count(&mut self, family: Family) -> u64 {
        let count = self.total - self.reported;
        self.families[family as usize] += count;
        self.reported = self.total;
        count
    }

    /// What was counted apart is added.
    pub fn add(&mut self, other: Tally) {
        self.total += other.total;
        self.reported += other.reported;
        for (count, more) in self.families.iter_mut().zip(other.families) {
            *count += more;
        }
        for (number, count) in other.answers {
            *self.answers.entry(number).or_default() += count;
        }
        for (count, more) in self.verdicts.iter_mut().zip(other.verdicts) {
            *count += more;
        }
        self.builds += other.builds;
        self.matches += other.matches;
        self.largest_table = self.largest_table.max(other.largest_table);
        self.largest_peak = self.largest_peak.max(other.largest_peak);
        self.seen.add(other.seen);
    }

    /// Says what was met in all. An answer that never came up means that the inputs miss a rule, and fails.
    pub fn close(&self, took: Duration) -> ExitCode {
        let [texts, tables, calls, crossings, made, moves] = self.families;
        println!("{texts:>12} comparisons of texts and matches of patterns in all");
        println!("{tables:>12} comparisons of lists, tables and matches on them in all");
        println!("{calls:>12} comparisons of calls on snapshots and caches in all");
        println!("{crossings:>12} comparisons of crossings of two patterns in all");
        println!(
            "{made:>12} comparisons of made patterns and subjects, and of lists of them, in all"
        );
        println!("{moves:>12} comparisons of whole moves in all");
        let [no, yes] = self.verdicts;
        println!("answers by number: {:?}", self.answers);
        println!("matches of a pattern: {yes} yes, {no} no");
        println!(
            "tables: {} built, {} matches on them; the largest has {} nodes, the largest peak is {}",
            self.builds, self.matches, self.largest_table, self.largest_peak
        );
        let mut missing = self.seen.report();
        let never = |number: &&u64| !self.answers.contains_key(number);
        let numbers = NUMBERS.iter().filter(never);
        missing.extend(numbers.map(|number| format!("an answer by {number}")));
        if self.verdicts.contains(&0) {
            missing.push("a pattern that matches, or one that does not".into());
        }
        if !missing.is_empty() {
            eprintln!("never came up: {}", missing.join("; "));
            return ExitCode::FAILURE;
        }
        let seconds = took.as_secs_f64();
        println!(
            "{} comparisons in {seconds:.1} s, no difference",
            self.total
        );
        ExitCode::SUCCESS
    }
}
