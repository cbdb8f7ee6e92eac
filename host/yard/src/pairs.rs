//! The pairs of lines of a list that one order can meet. Whether it can, and which order shows it, the router says of each pair.
use crate::json::{array, Object};
use crate::list::Line;
use crate::progress::{Progress, Writes};
use crate::shown::{counted, grouped};
use crate::trouble::Trouble;
use router::MAX_TEXT;
use std::io;

/// Two lines that one order can meet, the earlier first.
pub struct Pair<'p, 'f> {
    /// Their places among the lines.
    pub places: [usize; 2],
    pub lines: [&'p Line<'f>; 2],
    /// A shortest such order.
    pub order: &'p [u8],
}

impl Pair<'_, '_> {
    fn same_target(&self) -> bool {
        let [first, second] = self.lines;
        first.target == second.target
    }

    pub fn json(&self) -> String {
        Object::default()
            .field("lines", array(self.lines.map(|line| line.json().end())))
            .field("same_target", self.same_target())
            .bytes("order", self.order)
            .end()
    }
}

/// How many pairs of lines one order can meet.
#[derive(Clone, Copy, Debug, Default, PartialEq, Eq)]
pub struct Count {
    same_target: usize,
    different_targets: usize,
}

impl Count {
    fn add(&mut self, pair: &Pair<'_, '_>) {
        if pair.same_target() {
            self.same_target += 1;
        } else {
            self.different_targets += 1;
        }
    }

    pub const fn total(&self) -> usize {
        self.same_target + self.different_targets
    }

    /// The count in words, from `3 pairs of lines` on.
    pub fn text(&self) -> String {
        format!(
            "{} of lines can meet in one order, which is then Ambiguous: {} with different targets, {} with the same target",
            counted(self.total(), "pair"),
            grouped(self.different_targets),
            grouped(self.same_target)
        )
    }

    /// The count as fields of an object.
    pub fn json(&self, object: Object) -> Object {
        object
            .field("pairs", self.total())
            .field("different_targets", self.different_targets)
    }
}

/// Hands over each pair of lines that one order can meet, as they stand in the list, and counts them.
pub fn each<'f>(
    lines: &[Line<'f>],
    writes: Writes,
    mut met: impl FnMut(&Pair<'_, 'f>) -> io::Result<()>,
) -> Result<Count, Trouble> {
    let all = lines.len() * lines.len().saturating_sub(1) / 2;
    let mut progress = Progress::of("pairs of lines", writes).out_of(all);
    let (mut count, mut done) = (Count::default(), 0);
    let mut room = [0; MAX_TEXT];
    for (place, line) in lines.iter().enumerate() {
        for (behind, other) in lines.iter().enumerate().skip(place + 1) {
            if let Some(order) = router::crossing(line.pattern, other.pattern, &mut room)? {
                let pair = Pair {
                    places: [place, behind],
                    lines: [line, other],
                    order,
                };
                count.add(&pair);
                met(&pair)?;
            }
            done += 1;
            progress.at(done);
        }
    }
    Ok(count)
}

/// How many pairs of lines one order can meet.
pub fn count(lines: &[Line<'_>]) -> Result<Count, Trouble> {
    each(lines, Writes::AtItsEnd, |_| Ok(()))
}
