//! Which lines of a list meet which, for the screen: under a line those that it can meet, by their targets.
use crate::list::Line;
use crate::pairs::{self, Count};
use crate::progress::Writes;
use crate::rows::{self, Row};
use crate::shown::counted;
use crate::trouble::Trouble;
use router::MAX_TEXT;
use std::cmp::Reverse;
use std::collections::BTreeMap;
use std::io::Write;

/// The most groups of pairs, rows of a group and ranges of a row that are shown, unless every pair is asked for.
const MOST_GROUPS: usize = 50;
const MOST_ROWS: usize = 20;
const MOST_RANGES: usize = 6;

const EXPLAINED: &str = "
An Ambiguous order goes nowhere, even where both lines have the same target. Pairs with different targets,
where two panels claim the order, stand first. Each pair is shown once, under the line of the two that meets
more. The order in a row is one example, for the line above and the first of the row: no order that both
match is shorter, and further lines may match it too.
";

/// A line and those that it meets, as far as the pairs are told with it; by their places.
struct Group {
    place: u32,
    others: Vec<u32>,
}

/// Which lines of a list can meet which in one order.
pub struct Meetings<'l, 'f> {
    lines: &'l [Line<'f>],
    /// For each line the places of those that it meets, in the order of the list.
    met: Vec<Vec<u32>>,
    pub count: Count,
}

impl<'l, 'f> Meetings<'l, 'f> {
    pub fn of(lines: &'l [Line<'f>]) -> Result<Meetings<'l, 'f>, Trouble> {
        let mut met = vec![Vec::new(); lines.len()];
        let count = pairs::each(lines, Writes::AtItsEnd, |pair| {
            let [place, behind] = pair.places;
            met[place].push(behind as u32);
            met[behind].push(place as u32);
            Ok(())
        })?;
        Ok(Meetings { lines, met, count })
    }

    fn line(&self, place: u32) -> &'l Line<'f> {
        &self.lines[place as usize]
    }

    fn met(&self, place: u32) -> &[u32] {
        &self.met[place as usize]
    }

    /// Whether a pair is told with the first of two lines: with the one that meets more, else with the earlier.
    fn leads(&self, place: u32, other: u32) -> bool {
        let rank = |place| (self.met(place).len(), Reverse(place));
        rank(place) > rank(other)
    }

    /// The lines whose pairs with a line are told with it and have the same target, or different ones.
    fn led(&self, place: u32, same_target: bool) -> Vec<u32> {
        let target = |place| self.line(place).target;
        let told = |&other: &u32| {
            self.leads(place, other) && (target(place) == target(other)) == same_target
        };
        self.met(place).iter().copied().filter(told).collect()
    }

    /// All pairs with the same target, or with different ones, each in one group. The largest groups first, then in the order of the list.
    fn groups(&self, same_target: bool) -> Vec<Group> {
        let places = 0..self.lines.len() as u32;
        let groups = places.map(|place| Group {
            place,
            others: self.led(place, same_target),
        });
        let mut groups: Vec<Group> = groups.filter(|group| !group.others.is_empty()).collect();
        groups.sort_by_key(|group| Reverse(group.others.len()));
        groups
    }

    /// The lines of a group by their targets: those of most lines first, then by number.
    fn by_target(&self, group: &Group) -> Vec<Vec<u32>> {
        let mut found: BTreeMap<u32, Vec<u32>> = BTreeMap::new();
        for &other in &group.others {
            let target = self.line(other).target;
            found.entry(target).or_default().push(other);
        }
        let mut parts: Vec<Vec<u32>> = found.into_values().collect();
        parts.sort_by_key(|part| Reverse(part.len()));
        parts
    }

    /// The numbers of lines, as `9-32, 40`: one range for those that follow each other in the list.
    fn ranges(&self, places: &[u32]) -> String {
        let number = |place: &u32| self.line(*place).number.to_string();
        let mut runs = places.chunk_by(|place, next| place + 1 == *next);
        let told: Vec<String> = runs
            .by_ref()
            .take(MOST_RANGES)
            .map(|run| match run {
                [first, .., last] => format!("{}-{}", number(first), number(last)),
                _ => run.iter().map(number).collect(),
            })
            .collect();
        let more = if runs.next().is_some() { " ..." } else { "" };
        told.join(", ") + more
    }

    /// The row of some lines of one target that a line meets.
    fn row(&self, line: &Line<'_>, places: &[u32]) -> Result<Row, Trouble> {
        let first = self.line(places[0]);
        let mut room = [0; MAX_TEXT];
        let order = router::crossing(line.pattern, first.pattern, &mut room)?;
        let row = Row::of_line(first, order.unwrap_or_default());
        Ok(match places.len() {
            1 => row,
            several => Row {
                lines: format!("{}: {}", counted(several, "line"), self.ranges(places)),
                ..row
            },
        })
    }

    fn write_group(
        &self,
        group: &Group,
        verbose: bool,
        out: &mut impl Write,
    ) -> Result<(), Trouble> {
        let line = self.line(group.place);
        let pairs = counted(group.others.len(), "pair");
        writeln!(out, "\n  {}  -> {} ({pairs})", line.text(), line.target)?;
        let (parts, most) = if verbose {
            let each = group.others.iter().map(|&other| vec![other]);
            (each.collect(), usize::MAX)
        } else {
            (self.by_target(group), MOST_ROWS)
        };
        let rows = parts.iter().take(most).map(|part| self.row(line, part));
        rows::write(out, 6, &rows.collect::<Result<Vec<_>, _>>()?)?;
        let more = parts.len().saturating_sub(most);
        if more > 0 {
            let targets = counted(more, "more target");
            writeln!(out, "      and {targets} (--verbose shows every pair)")?;
        }
        Ok(())
    }

    fn write_groups(
        &self,
        groups: &[Group],
        verbose: bool,
        out: &mut impl Write,
    ) -> Result<(), Trouble> {
        let most = if verbose { usize::MAX } else { MOST_GROUPS };
        for group in groups.iter().take(most) {
            self.write_group(group, verbose, out)?;
        }
        let left = groups.iter().skip(most).map(|group| group.others.len());
        let (lines, pairs) = left.fold((0, 0), |(lines, pairs), more| (lines + 1, pairs + more));
        if lines > 0 {
            let (lines, pairs) = (counted(lines, "more line"), counted(pairs, "pair"));
            writeln!(
                out,
                "\n  and {lines} with {pairs} (--verbose shows every pair)"
            )?;
        }
        Ok(())
    }

    /// All pairs, or so many of them as a person can take in, those with different targets first.
    pub fn write(&self, name: &str, verbose: bool, out: &mut impl Write) -> Result<(), Trouble> {
        if self.count.total() == 0 {
            return Ok(writeln!(out, "{name}: no two lines can meet in one order")?);
        }
        writeln!(out, "{name}: {}", self.count.text())?;
        out.write_all(EXPLAINED.as_bytes())?;
        for (title, same_target) in [("Different targets", false), ("The same target", true)] {
            let groups = self.groups(same_target);
            if !groups.is_empty() {
                let pairs = groups.iter().map(|group| group.others.len()).sum();
                writeln!(out, "\n{title}: {}", counted(pairs, "pair"))?;
                self.write_groups(&groups, verbose, out)?;
            }
        }
        Ok(())
    }
}
