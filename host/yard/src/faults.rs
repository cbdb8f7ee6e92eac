//! What is wrong with a list, line by line.
use crate::json::{array, Object};
use crate::shown::{counted, refused, shown};
use router::Refusal;
use std::fmt;

/// The most faults that are shown of a list; the others are counted.
pub const MOST: usize = 100;

/// What is wrong with a line.
#[derive(Clone, Debug, PartialEq, Eq)]
pub enum Cause {
    NoTarget,
    BadTarget(Vec<u8>),
    /// The router refuses the line's pattern, or the list with this line in it.
    Refused(Refusal),
}

impl fmt::Display for Cause {
    fn fmt(&self, f: &mut fmt::Formatter<'_>) -> fmt::Result {
        match self {
            Cause::NoTarget => f.write_str("no target: write the pattern, a blank and the panel's number"),
            Cause::BadTarget(word) => write!(
                f,
                "`{}` is no target: the line's last word, or the last before a comment, is a number from 0 to {}",
                shown(word),
                u32::MAX
            ),
            Cause::Refused(refusal) => f.write_str(&refused(refusal)),
        }
    }
}

/// A line and what is wrong with it.
#[derive(Clone, Debug, PartialEq, Eq)]
pub struct Fault {
    pub line: usize,
    pub cause: Cause,
}

impl Fault {
    fn json(&self) -> String {
        let object = Object::default()
            .field("line", self.line)
            .text("fault", &self.cause.to_string());
        match &self.cause {
            Cause::Refused(refusal) => object.refusal(refusal).end(),
            _ => object.end(),
        }
    }
}

/// The first faults of a list, and how many it has.
#[derive(Debug, Default)]
pub struct Faults {
    first: Vec<Fault>,
    total: usize,
}

impl Faults {
    pub fn add(&mut self, line: usize, cause: Cause) {
        self.total += 1;
        if self.first.len() < MOST {
            self.first.push(Fault { line, cause });
        }
    }

    pub const fn is_empty(&self) -> bool {
        self.total == 0
    }

    pub const fn total(&self) -> usize {
        self.total
    }

    /// One line a fault, as `name:line: fault`, and how many there are beyond those shown.
    pub fn text(&self, name: &str) -> String {
        let mut out = String::new();
        for fault in &self.first {
            out += &format!("{name}:{}: {}\n", fault.line, fault.cause);
        }
        let more = self.total - self.first.len();
        if more > 0 {
            out += &format!("{name}: and {}\n", counted(more, "more fault"));
        }
        out
    }

    /// The faults as fields of an object.
    pub fn json(&self, object: Object) -> Object {
        object
            .field("faults_in_all", self.total)
            .field("faults", array(self.first.iter().map(Fault::json)))
    }
}
