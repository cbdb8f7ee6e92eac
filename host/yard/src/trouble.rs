//! How the command ends: its exit status, and what keeps it from its work.
use crate::shown::refused;
use router::Refusal;
use std::fmt;
use std::io::{self, ErrorKind, Write};
use std::process::ExitCode;

/// The exit status of a command that did its work.
#[derive(Clone, Copy, Debug, PartialEq, Eq)]
pub enum Status {
    /// 0: the list is accepted, every subject is routed, no order meets two lines, the load is written.
    Good,
    /// 1: some subject is not routed, some text is refused, the pattern does not match, or an order meets two lines.
    NotAll,
    /// 2: the list, a pattern or a start is refused.
    Refused,
}

impl From<Status> for ExitCode {
    fn from(status: Status) -> ExitCode {
        ExitCode::from(match status {
            Status::Good => 0,
            Status::NotAll => 1,
            Status::Refused => 2,
        })
    }
}

/// What keeps the command from its work; its exit status is 2.
#[derive(Debug)]
pub enum Trouble {
    /// The command line is wrong in this way.
    Usage(String),
    /// A file cannot be used, for this reason.
    File { name: String, reason: String },
    /// The router refuses what it accepted before. A proved one does not.
    Router(Refusal),
    /// The output cannot be written.
    Output(io::Error),
}

impl From<io::Error> for Trouble {
    fn from(e: io::Error) -> Trouble {
        Trouble::Output(e)
    }
}

impl From<Refusal> for Trouble {
    fn from(refusal: Refusal) -> Trouble {
        Trouble::Router(refusal)
    }
}

impl fmt::Display for Trouble {
    fn fmt(&self, f: &mut fmt::Formatter<'_>) -> fmt::Result {
        match self {
            Trouble::Usage(fault) => write!(f, "{fault}\n`yard --help` shows the commands."),
            Trouble::File { name, reason } => write!(f, "{name}: {reason}"),
            Trouble::Router(refusal) => f.write_str(&refused(refusal)),
            Trouble::Output(e) => write!(f, "the output cannot be written: {e}"),
        }
    }
}

impl Trouble {
    /// Says the trouble on standard error. A reader that has enough and closed its pipe is not told.
    pub fn tell(&self) {
        match self {
            Trouble::Output(e) if e.kind() == ErrorKind::BrokenPipe => {}
            _ => complain(&format!("yard: {self}\n")),
        }
    }
}

/// Says on standard error that a text of the command line is refused.
pub fn tell_refused(which: &str, refusal: &Refusal) {
    complain(&format!("yard: the {which} is {}\n", refused(refusal)));
}

/// Writes to standard error; where that is closed there is nobody to tell.
pub fn complain(text: &str) {
    let _ = io::stderr().write_all(text.as_bytes());
}
