//! Lists of patterns, the tables built from them, and the snapshot in which a table stands. Areas are lent; nothing here allocates.
use crate::answers::{accepted, front, size, snapshot_state, values};
use crate::limits::{list_numbers, ENTRY_NUMBERS};
use crate::raw::{self, SnapshotState};
use crate::{depth, Refusal};

/// A list of patterns with their targets, in the order of insertion: the original's `SublistBuilder` over lent areas.
#[derive(Debug)]
pub struct List<'a> {
    entries: usize,
    used: usize,
    numbers: &'a mut [usize],
    store: &'a mut [u8],
}

impl<'a> List<'a> {
    /// An empty list. It has room for one entry for three numbers, 2,048 at the most, and for the bytes of the text store.
    pub fn new(numbers: &'a mut [usize], store: &'a mut [u8]) -> List<'a> {
        List {
            entries: 0,
            used: 0,
            numbers,
            store,
        }
    }

    /// A pattern and its target join the list, or the refusal says why not: 1 to 9, 10, 11.
    pub fn insert(&mut self, pattern: &[u8], target: u32) -> Result<(), Refusal> {
        let answer = raw::insert(
            self.entries,
            self.used,
            self.numbers,
            self.store,
            pattern,
            target,
        );
        let [entries, used, _] = accepted(answer)?;
        self.entries = size(entries);
        self.used = size(used);
        Ok(())
    }

    /// How many entries the list has.
    pub const fn len(&self) -> usize {
        self.entries
    }

    /// Whether the list has no entry.
    pub const fn is_empty(&self) -> bool {
        self.entries == 0
    }

    /// How many bytes the texts of the entries take.
    pub const fn text_bytes(&self) -> usize {
        self.used
    }

    /// The numbers of the entries, three an entry: start, length, target.
    pub fn numbers(&self) -> &[usize] {
        let end = list_numbers(self.entries);
        self.numbers.get(..end).unwrap_or(&[])
    }

    /// The texts of the entries, one behind the other.
    pub fn texts(&self) -> &[u8] {
        self.store.get(..self.used).unwrap_or(&[])
    }

    /// No table of this list has more nodes: the root, and one for each token.
    pub fn most_nodes(&self) -> usize {
        // The tokens of an entry are its dots and one; the depth of all texts, end to end, is all dots and one.
        self.entries + depth(self.texts())
    }

    /// The table of the list in lent areas, or why there is none: 12 to 16. [`List::most_nodes`] and [`List::len`] say how much is enough.
    pub fn build<'t>(
        &self,
        node_words: &'t mut [u32],
        target_words: &'t mut [u32],
    ) -> Result<Built<'t>, Refusal> {
        build(self.numbers(), self.texts(), node_words, target_words)
    }
}

/// A table that was just built, and the most nodes that any walk over it can stand at.
#[derive(Clone, Copy, Debug)]
pub struct Built<'t> {
    pub table: Table<'t>,
    pub worst_case: usize,
}

/// The generation that [`raw`] is told of a table that no snapshot has stamped: a snapshot stamps its first table 0 and each stored one with its counter, whatever it is.
const UNSTAMPED: u64 = 0;

/// The table of any numbers, three an entry, and any bytes as the text store; or 10, 12 to 16.
pub fn build<'t>(
    numbers: &[usize],
    store: &[u8],
    node_words: &'t mut [u32],
    target_words: &'t mut [u32],
) -> Result<Built<'t>, Refusal> {
    let answer = raw::build(numbers, store, node_words, target_words, UNSTAMPED);
    let [nodes, worst_case, _] = accepted(answer)?;
    Ok(Built {
        table: Table {
            nodes: size(nodes),
            targets: numbers.len() / ENTRY_NUMBERS,
            node_words,
            target_words,
        },
        worst_case: size(worst_case),
    })
}

/// A table: the original's `Sublist` in lent areas. Any counts and words may be put together; every call on them ends with a result or a refusal.
/// It has no generation until it stands in a [`Snapshot`].
#[derive(Clone, Copy, Debug)]
pub struct Table<'a> {
    pub nodes: usize,
    pub targets: usize,
    pub node_words: &'a [u32],
    pub target_words: &'a [u32],
}

/// The list that a match found, in the order of the scope document; the largest number of nodes that the walk stood at.
#[derive(Clone, Copy, Debug, PartialEq, Eq)]
pub struct Match<'o> {
    pub list: &'o [u32],
    pub peak: usize,
}

/// A match in the standing table, and that table's generation.
#[derive(Clone, Copy, Debug, PartialEq, Eq)]
pub struct StandingMatch<'o> {
    pub list: &'o [u32],
    pub peak: usize,
    pub generation: u64,
}

impl Table<'_> {
    /// How many nodes the table has.
    pub const fn node_count(&self) -> usize {
        self.nodes
    }

    /// The targets that a subject matches, in the first places of `out`; or 1 to 9, 19, 21. An output as long as the table's targets is never short.
    pub fn match_into<'o>(&self, subject: &[u8], out: &'o mut [u32]) -> Result<Match<'o>, Refusal> {
        let answer = raw::match_table(
            self.nodes,
            self.targets,
            self.node_words,
            self.target_words,
            subject,
            out,
        );
        let [length, peak, _] = accepted(answer)?;
        Ok(Match {
            list: front(out, length),
            peak: size(peak),
        })
    }
}

/// The table that stands, copied into an area of its own, with its generation and the counter of stores: the original's `SublistSnapshot`.
#[derive(Debug)]
pub struct Snapshot<'a> {
    state: SnapshotState,
    area: &'a mut [u32],
}

impl<'a> Snapshot<'a> {
    /// A snapshot with a copy of its first table, stamped 0; or 19, 20. [`crate::table_words`] says how long the area must be.
    pub fn new(table: &Table<'_>, area: &'a mut [u32]) -> Result<Snapshot<'a>, Refusal> {
        let made = raw::snapshot_new(
            table.nodes,
            table.targets,
            UNSTAMPED,
            table.node_words,
            table.target_words,
            area,
        );
        Snapshot::made(made, area)
    }

    /// A snapshot whose first table has no entries, stamped 0; or 20.
    pub fn empty(area: &'a mut [u32]) -> Result<Snapshot<'a>, Refusal> {
        let made = raw::snapshot_empty(area);
        Snapshot::made(made, area)
    }

    fn made(made: raw::MadeSnapshot, area: &'a mut [u32]) -> Result<Snapshot<'a>, Refusal> {
        values(made.number, [0; 3])?;
        Ok(Snapshot {
            state: snapshot_state(made.nodes, made.targets, made.generation, made.next),
            area,
        })
    }

    /// A snapshot of any state and area, such as were kept from another run. Every call on it ends with a result or a refusal.
    pub fn from_parts(state: SnapshotState, area: &'a mut [u32]) -> Snapshot<'a> {
        Snapshot { state, area }
    }

    /// The state and the area.
    pub fn parts(&self) -> (SnapshotState, &[u32]) {
        (self.state, self.area)
    }

    /// A table is copied in and stands from now on. The answer is the generation that it is stamped with; or 19, 20, and the old one stands.
    pub fn store(&mut self, table: &Table<'_>) -> Result<u64, Refusal> {
        let stored = raw::store(
            self.state,
            table.nodes,
            table.targets,
            UNSTAMPED,
            table.node_words,
            table.target_words,
            self.area,
        );
        self.state = snapshot_state(stored.nodes, stored.targets, stored.generation, stored.next);
        values(stored.number, [stored.stamped, 0, 0]).map(|[stamped, ..]| stamped)
    }

    /// The generation of the standing table.
    pub const fn generation(&self) -> u64 {
        self.state.generation
    }

    /// How many nodes the standing table has.
    pub const fn node_count(&self) -> usize {
        self.state.nodes
    }

    /// How many targets the standing table has: an output as long as that is never short.
    pub const fn target_count(&self) -> usize {
        self.state.targets
    }

    /// The targets that a subject matches in the standing table, in the first places of `out`; or 1 to 9, 19, 21.
    pub fn match_into<'o>(
        &self,
        subject: &[u8],
        out: &'o mut [u32],
    ) -> Result<StandingMatch<'o>, Refusal> {
        let answer = raw::snapshot_match(self.state, self.area, subject, out);
        let [length, peak, generation] = accepted(answer)?;
        Ok(StandingMatch {
            list: front(out, length),
            peak: size(peak),
            generation,
        })
    }
}

#[cfg(test)]
mod tests {
    use super::*;
    use crate::TextRefusal;

    /// The scope document's row: a.b 1, > 2, *.b 3, a.> 4, a.b 5.
    const ROW: [(&str, u32); 5] = [("a.b", 1), (">", 2), ("*.b", 3), ("a.>", 4), ("a.b", 5)];

    #[test]
    fn the_row_of_five_entries() {
        let (mut numbers, mut store) = ([0; 15], [0; 16]);
        let mut list = List::new(&mut numbers, &mut store);
        for (pattern, target) in ROW {
            assert_eq!(list.insert(pattern.as_bytes(), target), Ok(()));
        }
        assert_eq!((list.len(), list.text_bytes()), (5, 13));
        assert_eq!(list.insert(b"c", 6), Err(Refusal::EntriesFull));
        let (mut nodes, mut targets, mut out) = ([0; 16 * 5], [0; 5], [0; 5]);
        let built = list.build(&mut nodes, &mut targets);
        let Ok(Built { table, worst_case }) = built else {
            panic!("{built:?}");
        };
        assert_eq!((table.node_count(), worst_case), (5, 2));
        let found = Match {
            list: &[2, 4, 1, 5, 3],
            peak: 2,
        };
        assert_eq!(table.match_into(b"a.b", &mut out), Ok(found));
        let short = Err(Refusal::OutShort { needed: 5 });
        assert_eq!(table.match_into(b"a.b", &mut [0; 4]), short);
    }

    #[test]
    fn refusals_of_lists_and_builds() {
        let mut list = List::new(&mut [], &mut []);
        let empty = TextRefusal::EmptyToken { index: 1 };
        assert_eq!(list.insert(b"a..b", 1), Err(Refusal::Text(empty)));
        assert_eq!(list.insert(b"a", 1), Err(Refusal::EntriesFull));
        let mut numbers = [0; 3];
        let mut list = List::new(&mut numbers, &mut []);
        assert_eq!(list.insert(b"a", 1), Err(Refusal::TextFull));
        let refused = |numbers: &[usize], store: &[u8]| {
            build(numbers, store, &mut [0; 32], &mut [0; 1]).err()
        };
        assert_eq!(
            refused(&[0, 2, 1], b"a"),
            Some(Refusal::BadEntry { index: 0 })
        );
        let held = Refusal::InvalidPattern(TextRefusal::Empty);
        assert_eq!(refused(&[0, 0, 1], b"a"), Some(held));
        let nodes = Refusal::NodesFull { needed: 3 };
        assert_eq!(refused(&[0, 3, 1], b"a.b"), Some(nodes));
        assert_eq!(
            refused(&[0, 1, 1, 0, 1, 2], b"a"),
            Some(Refusal::TargetsFull)
        );
    }

    #[test]
    fn a_damaged_table() {
        let table = Table {
            nodes: 3,
            targets: usize::MAX,
            node_words: &[u32::MAX; 48],
            target_words: &[],
        };
        assert_eq!(table.match_into(b"a", &mut []), Err(Refusal::Damaged));
    }
}
