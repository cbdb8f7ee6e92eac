//! Tables and subjects that calls on a snapshot and its caches draw from: few, so that subjects come again, hit and push each other out.
use crate::kinds::{self, pattern, subject_near};
use crate::tables::{fresh_words, packed};
use crate::tally::Tally;
use compare::area::Lent;
use compare::lists::{self, Line};
use compare::model::Tree;
use compare::random::Random;
use compare::table::NODE_WORDS;
use oracle::sublist::{Sublist, SublistBuilder};
use router::limits::KEY_BYTES;
use router::raw;

/// A list and its table on all sides.
pub struct Pooled {
    pub table: Lent,
    pub tree: Tree,
    builder: SublistBuilder<u32>,
}

pub struct Pool {
    pub tables: Vec<Pooled>,
    pub subjects: Vec<Vec<u8>>,
}

const WORDS: [&str; 3] = ["a", "b", "c"];

/// Texts that are no subject.
const REFUSED: [&[u8]; 10] = [
    b"",
    b"a..b",
    b".",
    b"a.*",
    b">",
    b"a.\x01b",
    b"\x7f",
    b"a.b*",
    b"a.\xff",
    b"\xe2\x82",
];

impl Pooled {
    pub fn new(tally: &mut Tally, lines: &[Line]) -> Pooled {
        let tree = Tree::new(lines);
        let (numbers, store) = packed(lines);
        let mut node_words = fresh_words(tree.node_count() * NODE_WORDS);
        let mut target_words = fresh_words(lines.len());
        let built = raw::build(&numbers, &store, &mut node_words, &mut target_words, 0);
        let mut builder = SublistBuilder::new();
        for (pattern, target) in lines {
            let text = std::str::from_utf8(pattern).expect("patterns here are UTF-8");
            builder.insert(text, *target).expect("and accepted");
        }
        let due = (0, tree.node_count() as u64);
        tally.compare_list("build", lines, b"", (built.number, built.first), due);
        tally.builds += 1;
        let table = Lent {
            nodes: tree.node_count(),
            targets: lines.len(),
            node_words,
            target_words,
        };
        Pooled {
            table,
            tree,
            builder,
        }
    }

    /// The words that the table takes.
    pub fn length(&self) -> usize {
        self.table.node_words.len() + self.table.target_words.len()
    }

    /// The original's table. It has no copy, so it is built each time.
    pub fn original(&self, generation: u64) -> Sublist<u32> {
        let built = self.builder.build(generation);
        built.expect("a list whose worst case is small is accepted")
    }
}

/// A list of some lines over few words; where long lists are wanted also one that has a line many times, so that lists of about 16 targets come up.
fn small_lines(random: &mut Random, long_lists: bool) -> Vec<Line> {
    let mut patterns: Vec<Vec<u8>> = (0..random.below(13))
        .map(|_| pattern(random, &WORDS, 3, 3, 4))
        .collect();
    if random.once_in(6) {
        patterns.clear();
    }
    if long_lists {
        let line = random.pick(&[">", "a.>", "*", "a", "*.b"]);
        let copies = 13 + random.below(8);
        patterns.extend((0..copies).map(|_| line.as_bytes().to_vec()));
    }
    kinds::with_targets(random, patterns)
}

/// A subject of about 256 bytes, or of over 4,000; a longer one than fits a slot only where long subjects are wanted.
fn long_subject(random: &mut Random, over: bool) -> Vec<u8> {
    let length = match random.below(4) {
        0 if over => 4096 - random.below(2),
        1 | 2 if over => KEY_BYTES + 1 + random.below(3),
        _ => KEY_BYTES - random.below(2),
    };
    let mut subject = random.pick(&["a", "b", "a.b", "c.ä."]).as_bytes().to_vec();
    while subject.len() < length {
        let filler = if subject.len() % 90 == 89 { b'.' } else { b'x' };
        subject.push(filler);
    }
    if subject.ends_with(b".") {
        subject.pop();
        subject.push(b'x');
    }
    subject
}

/// Those and two that are long: texts that are refused as subjects by each of the numbers 1 to 9 but 4.
pub fn refused_texts() -> Vec<Vec<u8>> {
    let short = REFUSED.iter().map(|text| text.to_vec());
    short.chain([vec![b'a'; 4097], too_deep()]).collect()
}

/// A text of 33 tokens.
fn too_deep() -> Vec<u8> {
    ["a"; 33].join(".").into_bytes()
}

/// A text that is refused as a subject, by any of the numbers 1 to 9 but 4.
fn refused_text(random: &mut Random) -> Vec<u8> {
    match random.below(REFUSED.len() + 2) {
        0 => vec![b'a'; 4097 + random.below(2)],
        1 => too_deep(),
        _ => random.pick(&REFUSED).to_vec(),
    }
}

fn small_subject(random: &mut Random, lines: &[Line]) -> Vec<u8> {
    if random.once_in(2) {
        return subject_near(random, &WORDS, lines);
    }
    pattern(random, &WORDS, 3, usize::MAX, usize::MAX)
}

impl Pool {
    /// Few short lists over few words.
    pub fn small(tally: &mut Tally, random: &mut Random) -> Pool {
        let long_lists = random.once_in(3);
        let over = random.once_in(3);
        let lists: Vec<Vec<Line>> = (0..2 + random.below(4))
            .map(|_| small_lines(random, long_lists))
            .collect();
        let most = if random.once_in(2) { 5 } else { 40 };
        let subjects = (0..2 + random.below(most)).map(|_| match random.below(14) {
            0 => refused_text(random),
            1 => long_subject(random, over),
            _ => {
                let near = random.below(lists.len());
                small_subject(random, &lists[near])
            }
        });
        let subjects = subjects.collect();
        let tables = lists.iter().map(|lines| Pooled::new(tally, lines));
        Pool {
            tables: tables.collect(),
            subjects,
        }
    }

    /// Lists as a yard has them, and subjects of the yard.
    pub fn yard(tally: &mut Tally, random: &mut Random, most: usize, subjects: usize) -> Pool {
        let tables = (0..2 + random.below(2)).map(|_| {
            let count = 1 + random.below(most);
            Pooled::new(tally, &lists::yard(random, count))
        });
        let tables = tables.collect();
        let subjects = (0..subjects).map(|_| lists::yard_subject(random));
        Pool {
            tables,
            subjects: subjects.collect(),
        }
    }

    /// Lists as a yard has them, and a subject for each of their lines.
    pub fn matched(tally: &mut Tally, random: &mut Random, most: usize) -> Pool {
        let lists = (0..2 + random.below(2)).map(|_| {
            let count = 1 + random.below(most);
            lists::yard(random, count)
        });
        let lists: Vec<Vec<Line>> = lists.collect();
        let patterns = lists.iter().flatten().map(|(pattern, _)| pattern);
        let subjects = patterns.map(|pattern| lists::subject_of(pattern, random));
        let subjects = subjects.collect();
        let tables = lists.iter().map(|lines| Pooled::new(tally, lines));
        Pool {
            tables: tables.collect(),
            subjects,
        }
    }

    /// A subject, half of the time one of the first few.
    pub fn subject(&self, random: &mut Random) -> &[u8] {
        let count = self.subjects.len();
        let few = if random.once_in(2) {
            count.min(6)
        } else {
            count
        };
        &self.subjects[random.below(few)]
    }
}
