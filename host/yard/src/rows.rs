//! Lines that another line can meet, in columns: the lines, their target, and an order that shows it.
use crate::list::Line;
use crate::shown::shown;
use std::io::{self, Write};

/// A longer text does not make the column of lines wider.
const WIDEST: usize = 50;

/// One line or several of one target, and an order that the first of them and the other line match.
pub struct Row {
    pub lines: String,
    pub target: u32,
    pub order: String,
}

impl Row {
    pub fn of_line(line: &Line<'_>, order: &[u8]) -> Row {
        Row {
            lines: line.text(),
            target: line.target,
            order: shown(order),
        }
    }
}

/// Writes rows, each behind so many blanks.
pub fn write(out: &mut impl Write, blanks: usize, rows: &[Row]) -> io::Result<()> {
    let lines = rows.iter().map(|row| row.lines.chars().count());
    let targets = rows.iter().map(|row| row.target.to_string().len());
    let wide = lines.max().unwrap_or(0).min(WIDEST);
    let digits = targets.max().unwrap_or(0);
    for row in rows {
        let (lines, target, order) = (&row.lines, row.target, &row.order);
        writeln!(
            out,
            "{:blanks$}{lines:<wide$}  -> {target:<digits$}  {order}",
            ""
        )?;
    }
    Ok(())
}
