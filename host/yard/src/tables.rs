//! A list and its table in memory of this program, lent to the router.
use crate::list::Line;
use router::{list_numbers, node_words, List, Refusal, Table};

/// The list as the router holds it.
pub struct Store {
    numbers: Vec<usize>,
    texts: Vec<u8>,
}

impl Store {
    /// Room for some lines.
    pub fn for_lines(lines: &[Line<'_>]) -> Store {
        let bytes = lines.iter().map(|line| line.pattern.len()).sum();
        Store {
            numbers: vec![0; list_numbers(lines.len())],
            texts: vec![0; bytes],
        }
    }

    /// An empty list over the room.
    pub fn list(&mut self) -> List<'_> {
        List::new(&mut self.numbers, &mut self.texts)
    }
}

/// A table with its areas.
#[derive(Debug)]
pub struct OwnedTable {
    pub nodes: usize,
    pub targets: usize,
    pub worst_case: usize,
    pub text_bytes: usize,
    node_words: Vec<u32>,
    target_words: Vec<u32>,
}

impl OwnedTable {
    /// The table of some lines, each with the target that is said of it and its place.
    pub fn of_lines(
        lines: &[Line<'_>],
        target: impl Fn(usize, &Line<'_>) -> u32,
    ) -> Result<OwnedTable, Refusal> {
        let mut store = Store::for_lines(lines);
        let mut list = store.list();
        for (place, line) in lines.iter().enumerate() {
            list.insert(line.pattern, target(place, line))?;
        }
        OwnedTable::of_list(&list)
    }

    fn of_list(list: &List<'_>) -> Result<OwnedTable, Refusal> {
        let mut nodes = vec![0; node_words(list.most_nodes())];
        let mut targets = vec![0; list.len()];
        let built = list.build(&mut nodes, &mut targets)?;
        let (table, worst_case) = (built.table, built.worst_case);
        let counts = (table.nodes, table.targets);
        nodes.truncate(node_words(counts.0));
        Ok(OwnedTable {
            nodes: counts.0,
            targets: counts.1,
            worst_case,
            text_bytes: list.text_bytes(),
            node_words: nodes,
            target_words: targets,
        })
    }

    /// The table as it is lent.
    pub fn lent(&self) -> Table<'_> {
        Table {
            nodes: self.nodes,
            targets: self.targets,
            node_words: &self.node_words,
            target_words: &self.target_words,
        }
    }
}

/// The two tables of a list: one with its targets, by which orders go, and one in which each line's target is its place, which shows the lines that match.
#[derive(Debug)]
pub struct Tables {
    pub targets: OwnedTable,
    pub places: OwnedTable,
}

impl Tables {
    pub fn of_lines(lines: &[Line<'_>]) -> Result<Tables, Refusal> {
        Ok(Tables {
            targets: OwnedTable::of_lines(lines, |_, line| line.target)?,
            places: OwnedTable::of_lines(lines, |place, _| place as u32)?,
        })
    }
}
