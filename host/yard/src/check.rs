//! `yard check`: whether a list is accepted, and how much room is left.
use crate::command_line::Options;
use crate::json::Object;
use crate::list::Line;
use crate::list_file::{ListFile, Loaded};
use crate::notes::Notes;
use crate::pairs::{self, Count};
use crate::shown::{counted, grouped, typed};
use crate::tables::OwnedTable;
use crate::trouble::{Status, Trouble};
use router::{node_words, table_words, MAX_ENTRIES, MAX_FRONTIER, MAX_NODES, MAX_TEXT};
use std::ffi::OsStr;
use std::io::{self, Write};

/// One figure of a list: what it is, how much is used, and the limit.
struct Figure {
    name: &'static str,
    key: &'static str,
    used: usize,
    limit: usize,
}

/// A list that is accepted.
struct Accepted<'a, 'f> {
    /// The list as it stands on the command line, and its name for messages.
    list: &'a OsStr,
    name: &'a str,
    lines: &'a [Line<'f>],
    table: &'a OwnedTable,
    crossing: Count,
}

impl Accepted<'_, '_> {
    fn figures(&self) -> [Figure; 5] {
        let figure = |name, key, used, limit| Figure {
            name,
            key,
            used,
            limit,
        };
        let (nodes, text_bytes) = (self.table.nodes, self.table.text_bytes);
        [
            figure("entries", "entries", self.lines.len(), MAX_ENTRIES),
            figure(
                "text bytes",
                "text_bytes",
                text_bytes,
                MAX_ENTRIES * MAX_TEXT,
            ),
            figure("nodes", "nodes", nodes, MAX_NODES),
            figure(
                "node words",
                "node_words",
                node_words(nodes),
                node_words(MAX_NODES),
            ),
            figure(
                "worst case",
                "worst_case",
                self.table.worst_case,
                MAX_FRONTIER,
            ),
        ]
    }

    fn write(&self, out: &mut impl Write) -> io::Result<()> {
        writeln!(out, "{}: accepted\n", self.name)?;
        for figure in self.figures() {
            let (used, limit) = (grouped(figure.used), grouped(figure.limit));
            let left = grouped(figure.limit.saturating_sub(figure.used));
            writeln!(
                out,
                "  {:<10} {used:>9} of {limit:>9}, {left:>9} left",
                figure.name
            )?;
        }
        let bytes = 4 * table_words(self.table.nodes, self.table.targets);
        writeln!(out, "\nThe table takes {} bytes.", grouped(bytes))?;
        writeln!(
            out,
            "An order stands at {} of the table at once, at the most.",
            counted(self.table.worst_case, "place")
        )?;
        self.write_crossing(out)?;
        Notes::on(self.lines).write(out)
    }

    /// The note on lines that one order can meet.
    fn write_crossing(&self, out: &mut impl Write) -> io::Result<()> {
        if self.crossing.total() == 0 {
            return Ok(());
        }
        let list = typed(&self.list.to_string_lossy());
        writeln!(out, "\nNote: {}", self.crossing.text())?;
        writeln!(out, "  `yard crossing {list}` shows them")
    }

    fn json(&self) -> String {
        let mut object = Object::default()
            .bytes("list", self.name.as_bytes())
            .field("accepted", true);
        for figure in self.figures() {
            let value = Object::default()
                .field("used", figure.used)
                .field("limit", figure.limit);
            object = object.field(figure.key, value.end());
        }
        let crossing = self.crossing.json(Object::default());
        let object = object.field("crossing", crossing.end());
        Notes::on(self.lines).json(object).end()
    }
}

fn write_refused(out: &mut impl Write, name: &str, loaded: &Loaded<'_>) -> io::Result<()> {
    let faults = counted(loaded.faults.total(), "fault");
    writeln!(out, "{name}: REFUSED, {faults}\n")?;
    out.write_all(loaded.faults.text(name).as_bytes())?;
    let lines = counted(loaded.lines.len(), "line");
    writeln!(out, "\n{lines} without a fault. No table is built.")?;
    Notes::on(&loaded.lines).write(out)
}

pub fn run(list: &OsStr, options: &Options, out: &mut impl Write) -> Result<Status, Trouble> {
    let file = ListFile::read(list)?;
    let (name, loaded) = (&file.name, file.load());
    let Some(tables) = &loaded.tables else {
        if options.json {
            loaded.tell_refusal(name, true, out)?;
        } else {
            write_refused(out, name, &loaded)?;
        }
        return Ok(Status::Refused);
    };
    let accepted = Accepted {
        list,
        name,
        lines: &loaded.lines,
        table: &tables.targets,
        crossing: pairs::count(&loaded.lines)?,
    };
    if options.json {
        writeln!(out, "{}", accepted.json())?;
    } else {
        accepted.write(out)?;
    }
    Ok(Status::Good)
}
