//! One list of lines on all sides: insert, build and match of the router, the original, and the model of worst cases and peaks.
use crate::tally::Tally;
use compare::area::Lent;
use compare::lists::Line;
use compare::model::{self, Tree};
pub use compare::model_snapshot::answer;
use compare::original;
use compare::random::Random;
use compare::table::{ENTRY_NUMBERS, MAX_ENTRIES, MAX_FRONTIER, NODE_WORDS};
use oracle::sublist::Sublist;
use router::raw::{self, Answer};

/// The most bytes that the areas of a match on bytes may have together.
pub const MOST_BYTES: usize = 65536;

/// What stands in a lent word before a call; it differs from place to place.
fn canary(place: usize) -> u32 {
    (place as u32).wrapping_mul(0x9e37_79b9) ^ 0xa5a5_a5a5
}

/// So many words, none of them used yet.
pub fn fresh_words(length: usize) -> Vec<u32> {
    (0..length).map(canary).collect()
}

/// Whether the words from a place on are as they were.
pub fn untouched(words: &[u32], from: usize) -> bool {
    words
        .iter()
        .enumerate()
        .skip(from)
        .all(|(place, &word)| word == canary(place))
}

/// Bytes of words, lowest byte first.
pub fn bytes_of(words: &[u32]) -> Vec<u8> {
    words.iter().flat_map(|word| word.to_le_bytes()).collect()
}

/// The numbers and the text store of a list, its texts one behind the other.
pub fn packed(lines: &[Line]) -> (Vec<usize>, Vec<u8>) {
    let mut words = Vec::with_capacity(lines.len() * ENTRY_NUMBERS);
    let mut store = Vec::new();
    for (pattern, target) in lines {
        words.extend([store.len(), pattern.len(), *target as usize]);
        store.extend_from_slice(pattern);
    }
    (words, store)
}

/// What insert should say of a pattern, by the scope document's words.
pub fn insert_says(
    entries: usize,
    used: usize,
    words: &[usize],
    store: &[u8],
    pattern: &[u8],
) -> Answer {
    let parsed = original::parse(pattern);
    if !parsed.accepted() {
        return parsed;
    }
    if entries >= MAX_ENTRIES.min(words.len() / ENTRY_NUMBERS) {
        return answer(10, &[]);
    }
    if pattern.len() > store.len().saturating_sub(used) {
        return answer(11, &[]);
    }
    answer(0, &[entries + 1, used + pattern.len()])
}

/// One insert, with what it leaves in the list and in the text store. The answer is the one that it should give.
pub fn insert(
    tally: &mut Tally,
    entries: usize,
    used: usize,
    words: &mut Vec<usize>,
    store: &mut Vec<u8>,
    line: &Line,
) -> Answer {
    let (pattern, target) = line;
    let theirs = insert_says(entries, used, words, store, pattern);
    let (mut words_due, mut store_due) = (words.clone(), store.clone());
    if theirs.accepted() {
        let numbers = [used, pattern.len(), *target as usize];
        words_due[entries * ENTRY_NUMBERS..][..ENTRY_NUMBERS].copy_from_slice(&numbers);
        store_due[used..][..pattern.len()].copy_from_slice(pattern);
    }
    let ours = raw::insert(entries, used, words, store, pattern, *target);
    let inputs = || {
        let (places, bytes) = (words.len(), store.len());
        format!("  {entries} entries, {used} bytes in use, {places} numbers and {bytes} bytes lent, {line:?}\n")
    };
    tally.compare_on("insert", inputs, ours, theirs);
    let list = std::slice::from_ref(line);
    tally.compare_list("insert's list", list, b"", &*words, &words_due);
    tally.compare_list("insert's text store", list, b"", &*store, &store_due);
    tally.met(theirs);
    theirs
}

/// A list on all sides.
pub struct Sides<'a> {
    lines: &'a [Line],
    theirs: Sublist<u32>,
    tree: Tree,
    table: Lent,
    /// The words of the table in bytes, where 64 KiB hold them.
    in_bytes: Option<(Vec<u8>, Vec<u8>)>,
}

/// The areas for a build: some words more than it needs, and the last node not whole.
fn areas(nodes: usize, targets: usize, random: &mut Random) -> (Vec<u32>, Vec<u32>) {
    let node_words = nodes * NODE_WORDS + random.below(3 * NODE_WORDS);
    (
        fresh_words(node_words),
        fresh_words(targets + random.below(3)),
    )
}

/// Builds a list of accepted patterns on all sides and compares what comes out. Nothing if the original refuses it, and so does the router.
pub fn build<'a>(tally: &mut Tally, random: &mut Random, lines: &'a [Line]) -> Option<Sides<'a>> {
    let generation = random.draw();
    let tree = Tree::new(lines);
    let (words, store) = packed(lines);
    let (mut node_words, mut target_words) = areas(tree.node_count(), lines.len(), random);
    let ours = raw::build(
        &words,
        &store,
        &mut node_words,
        &mut target_words,
        generation,
    );
    tally.builds += 1;
    let theirs = match original::build(lines, generation) {
        Ok(theirs) => theirs,
        Err(refusal) => {
            let worst = answer(16, &[tree.worst_case(), MAX_FRONTIER]);
            tally.compare_list("the model's worst case", lines, b"", worst, refusal);
            tally.compare_list("build", lines, b"", ours, refusal);
            let kept = untouched(&target_words, 0);
            tally.compare_list("a refused build's targets are kept", lines, b"", kept, true);
            tally.met(refusal);
            return None;
        }
    };
    let nodes = theirs.node_count();
    let due = Answer {
        third: theirs.generation(),
        ..answer(0, &[nodes, tree.worst_case()])
    };
    tally.compare_list("build", lines, b"", ours, due);
    tally.compare_list("the model's nodes", lines, b"", tree.node_count(), nodes);
    let kept = (
        untouched(&node_words, nodes * NODE_WORDS),
        untouched(&target_words, lines.len()),
    );
    tally.compare_list("build keeps unused words", lines, b"", kept, (true, true));
    tally.met(ours);
    tally.largest_table = tally.largest_table.max(nodes as u64);
    let table = Lent {
        nodes,
        targets: lines.len(),
        node_words,
        target_words,
    };
    let bytes = 4 * (table.node_words.len() + table.target_words.len());
    let in_bytes =
        (bytes <= MOST_BYTES).then(|| (bytes_of(&table.node_words), bytes_of(&table.target_words)));
    Some(Sides {
        lines,
        theirs,
        tree,
        table,
        in_bytes,
    })
}

/// What the bytes of an output of so many words should hold, the list first, with some bytes behind the last whole word.
fn list_in_bytes(list: &[u32], out: &[u8]) -> Vec<u8> {
    let mut bytes = bytes_of(list);
    bytes.extend_from_slice(&out[bytes.len()..]);
    bytes
}

/// The router's match on a table as it is lent.
pub fn match_lent(table: &Lent, subject: &[u8], out: &mut [u32]) -> Answer {
    raw::match_table(
        table.nodes,
        table.targets,
        &table.node_words,
        &table.target_words,
        subject,
        out,
    )
}

impl Sides<'_> {
    pub fn table(&self) -> &Lent {
        &self.table
    }

    /// The router's match into an output of so many words, and what it should give and leave.
    fn match_into(
        &self,
        tally: &mut Tally,
        subject: &[u8],
        length: usize,
        due: Answer,
        list: &[u32],
    ) {
        let mut out = fresh_words(length);
        let ours = match_lent(&self.table, subject, &mut out);
        tally.compare_list("match", self.lines, subject, ours, due);
        let written = if due.accepted() { list } else { &[] };
        let kept = untouched(&out, written.len());
        tally.compare_list(
            "match's list",
            self.lines,
            subject,
            &out[..written.len()],
            written,
        );
        tally.compare_list("match keeps the rest", self.lines, subject, kept, true);
        tally.met(due);
        tally.matches += 1;
    }

    /// The same on bytes.
    fn match_into_bytes(
        &self,
        tally: &mut Tally,
        subject: &[u8],
        length: usize,
        due: Answer,
        list: &[u32],
    ) {
        let Some((node_bytes, target_bytes)) = &self.in_bytes else {
            return;
        };
        let table = &self.table;
        let mut out = bytes_of(&fresh_words(length));
        out.extend_from_slice(&b"end"[..length % 4]);
        let due = if node_bytes.len() + target_bytes.len() + out.len() > MOST_BYTES {
            answer(99, &[])
        } else {
            due
        };
        let written = if due.accepted() { list } else { &[] };
        let out_due = list_in_bytes(written, &out);
        let ours = raw::match_bytes(
            table.nodes,
            table.targets,
            node_bytes,
            target_bytes,
            subject,
            &mut out,
        );
        tally.compare_list("match on bytes", self.lines, subject, ours, due);
        tally.compare_list("match's bytes", self.lines, subject, out, out_due);
        tally.met(due);
        tally.matches += 1;
    }

    /// A subject on all sides, and sometimes with an output that is too short, and on bytes.
    pub fn subject(&self, tally: &mut Tally, random: &mut Random, subject: &[u8]) {
        let mut list = Vec::new();
        let found = original::match_subject(&self.theirs, subject, &mut list);
        let mut due = found;
        if found.accepted() {
            let mut walked = Vec::new();
            let peak = self.tree.walk(subject, &mut walked);
            tally.compare_list("the model's list", self.lines, subject, &walked, &list);
            due.second = peak as u64;
            tally.largest_peak = tally.largest_peak.max(peak as u64);
        }
        let length = list.len() + random.below(4);
        self.match_into(tally, subject, length, due, &list);
        if random.once_in(4) {
            self.match_into_bytes(tally, subject, length, due, &list);
        }
        if found.accepted() && !list.is_empty() && random.once_in(8) {
            let short = answer(21, &[list.len()]);
            self.match_into(tally, subject, random.below(list.len()), short, &list);
        }
    }

    /// The list and the peak by the definitions that know no tree, against the walk.
    pub fn defined(&self, tally: &mut Tally, subject: &[u8]) {
        let mut list = Vec::new();
        let peak = self.tree.walk(subject, &mut list);
        let due = model::due(self.lines, subject);
        tally.compare_list("the list without a tree", self.lines, subject, &list, &due);
        let defined = model::peak(self.lines, subject);
        tally.compare_list(
            "the peak without a tree",
            self.lines,
            subject,
            peak,
            defined,
        );
    }
}
