//! Tables for the tests.
use router::{List, Table};

/// The scope document's row of five entries.
pub const ROW: [(&str, u32); 5] = [("a.b", 1), (">", 2), ("*.b", 3), ("a.>", 4), ("a.b", 5)];

/// A table of some lines in memory of the test.
pub struct Owned {
    nodes: Vec<u32>,
    targets: Vec<u32>,
    counts: (usize, usize),
}

impl Owned {
    pub fn of(lines: &[(&str, u32)]) -> Owned {
        let (mut numbers, mut store) = (vec![0; 3 * lines.len()], vec![0; 1000]);
        let mut list = List::new(&mut numbers, &mut store);
        for (pattern, target) in lines {
            list.insert(pattern.as_bytes(), *target).expect("accepted");
        }
        let (mut nodes, mut targets) = (vec![0; 16 * list.most_nodes()], vec![0; lines.len()]);
        let built = list.build(&mut nodes, &mut targets).expect("accepted");
        let counts = (built.table.nodes, built.table.targets);
        Owned {
            nodes,
            targets,
            counts,
        }
    }

    pub fn table(&self) -> Table<'_> {
        Table {
            nodes: self.counts.0,
            targets: self.counts.1,
            node_words: &self.nodes,
            target_words: &self.targets,
        }
    }
}
