//! A list from its file: its lines, its faults, and its tables where there is no fault.
use crate::faults::{Cause, Faults};
use crate::input;
use crate::json::Object;
use crate::list::{self, Line};
use crate::tables::{OwnedTable, Store, Tables};
use crate::trouble::{complain, Trouble};
use router::Refusal;
use std::io::Write;

/// A list that was read.
pub struct Loaded<'f> {
    /// The lines that the router takes into its list.
    pub lines: Vec<Line<'f>>,
    pub faults: Faults,
    /// The tables, where there is no fault.
    pub tables: Option<Tables>,
}

/// Reads a list, and builds its tables if each of its lines is accepted.
pub fn load(file: &[u8]) -> Loaded<'_> {
    let mut faults = Faults::default();
    let lines = accepted(list::lines(file).collect(), &mut faults);
    let mut tables = None;
    if faults.is_empty() {
        match Tables::of_lines(&lines) {
            Ok(built) => tables = Some(built),
            Err(refusal) => faults.add(refused_from(&lines), Cause::Refused(refusal)),
        }
    }
    Loaded {
        lines,
        faults,
        tables,
    }
}

/// The lines that the router's list takes; the others become faults. That the list is full is said once.
fn accepted<'f>(read: Vec<(usize, Result<Line<'f>, Cause>)>, faults: &mut Faults) -> Vec<Line<'f>> {
    let whole: Vec<Line<'_>> = read
        .iter()
        .filter_map(|(_, line)| line.as_ref().ok().copied())
        .collect();
    let mut store = Store::for_lines(&whole);
    let mut list = store.list();
    let mut lines = Vec::new();
    let mut full = false;
    for (number, line) in read {
        let inserted = line.and_then(|line| {
            let inserted = list.insert(line.pattern, line.target);
            inserted.map(|()| line).map_err(Cause::Refused)
        });
        match inserted {
            Ok(line) => lines.push(line),
            Err(Cause::Refused(Refusal::EntriesFull)) if full => {}
            Err(cause) => {
                full |= cause == Cause::Refused(Refusal::EntriesFull);
                faults.add(number, cause);
            }
        }
    }
    lines
}

/// The first line with which the list is refused, where the whole list is: what a list needs only grows with its lines.
fn refused_from(lines: &[Line<'_>]) -> usize {
    let places: Vec<usize> = (1..=lines.len()).collect();
    let accepted = |&count: &usize| OwnedTable::of_lines(&lines[..count], |_, _| 0).is_ok();
    let place = places.partition_point(accepted);
    lines.get(place).map_or(0, |line| line.number)
}

/// The bytes of a list's file, and its name for messages.
pub struct ListFile {
    pub name: String,
    bytes: Vec<u8>,
}

impl ListFile {
    pub fn read(name: &std::ffi::OsStr) -> Result<ListFile, Trouble> {
        Ok(ListFile {
            name: input::name_of(name),
            bytes: input::file(name)?,
        })
    }

    pub fn load(&self) -> Loaded<'_> {
        load(&self.bytes)
    }
}

impl Loaded<'_> {
    /// Says why a list is refused, for a command that needs its tables: on standard error, or for programs as JSON.
    pub fn tell_refusal(
        &self,
        name: &str,
        json: bool,
        out: &mut impl Write,
    ) -> Result<(), Trouble> {
        if json {
            let object = Object::default()
                .bytes("list", name.as_bytes())
                .field("accepted", false);
            writeln!(out, "{}", self.faults.json(object).end())?;
        } else {
            complain(&self.faults.text(name));
        }
        Ok(())
    }
}

#[cfg(test)]
mod tests {
    use super::*;

    #[test]
    fn every_faulty_line_is_named() {
        let loaded = load(b"a 1\na..b 2\nc\n>.x 3\nd x\n");
        assert_eq!(loaded.faults.total(), 4);
        let text = loaded.faults.text("l");
        let named: Vec<&str> = text.lines().filter_map(|line| line.get(..4)).collect();
        assert_eq!(named, ["l:2:", "l:3:", "l:4:", "l:5:"]);
        assert!(loaded.tables.is_none() && loaded.lines.len() == 1);
    }

    #[test]
    fn a_full_list_is_said_once() {
        let file: String = (0..2100).map(|n| format!("a.{n} {n}\n")).collect();
        let loaded = load(file.as_bytes());
        assert_eq!((loaded.lines.len(), loaded.faults.total()), (2048, 1));
        assert!(loaded
            .faults
            .text("l")
            .starts_with("l:2049: refused (10 EntriesFull)"));
    }

    /// Run `number` of ten tokens out of `a` and `*`.
    fn run_of_ten(number: usize) -> String {
        let token = |place: usize| if number >> place & 1 == 1 { "*" } else { "a" };
        (0..10).map(token).collect::<Vec<_>>().join(".")
    }

    #[test]
    fn the_line_that_passes_the_fork_limit() {
        let mut file: String = (0..1024)
            .map(|n| format!("{} {n}\n", run_of_ten(n)))
            .collect();
        assert!(load(file.as_bytes()).tables.is_some());
        let stars = run_of_ten(1023);
        file += &format!("x 1\n{stars}.a 1\n{stars}.* 2\ny 3\n");
        let loaded = load(file.as_bytes());
        assert!(loaded
            .faults
            .text("l")
            .starts_with("l:1027: refused (16 ForkLimitExceeded)"));
    }
}
