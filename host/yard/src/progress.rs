//! What is said to a person on standard error: what is waited for, and how far a long command is.
use crate::shown::grouped;
use crate::trouble::complain;
use std::io::{stderr, stdin, stdout, IsTerminal};
use std::time::{Duration, Instant};

/// Tells a person at the keyboard what is waited for.
pub fn ask_for(what: &str) {
    if stdin().is_terminal() && stderr().is_terminal() {
        complain(&format!("{what}, one a line; Ctrl-D ends\n"));
    }
}

/// How often the clock is looked at, and how long the line stands.
const EVERY: usize = 1024;
const PAUSE: Duration = Duration::from_secs(1);

/// When a command writes its answers.
#[derive(Clone, Copy, PartialEq, Eq)]
pub enum Writes {
    /// As it goes, so that a person who sees them sees how far it is.
    AsItGoes,
    /// At its end, so that a person who waits for them sees nothing until then.
    AtItsEnd,
}

/// The progress of a command. It shows nothing in the first second, nothing where no person looks at standard error, and nothing among the answers.
/// The line is taken away at the end, whatever that is.
pub struct Progress {
    what: &'static str,
    total: Option<usize>,
    next: Option<Instant>,
    shown: bool,
}

impl Progress {
    pub fn of(what: &'static str, writes: Writes) -> Progress {
        let among_answers = writes == Writes::AsItGoes && stdout().is_terminal();
        let watched = stderr().is_terminal() && !among_answers;
        Progress {
            what,
            total: None,
            next: watched.then(|| Instant::now() + PAUSE),
            shown: false,
        }
    }

    /// How many there are to do, where that is known.
    pub fn out_of(mut self, total: usize) -> Progress {
        self.total = Some(total);
        self
    }

    /// So many are done.
    pub fn at(&mut self, done: usize) {
        let Some(next) = self.next else { return };
        if !done.is_multiple_of(EVERY) || Instant::now() < next {
            return;
        }
        let total = self.total.map(|total| format!("of {} ", grouped(total)));
        let total = total.unwrap_or_default();
        complain(&format!("\r{} {total}{} ", grouped(done), self.what));
        self.shown = true;
        self.next = Some(Instant::now() + PAUSE);
    }
}

impl Drop for Progress {
    fn drop(&mut self) {
        if self.shown {
            complain("\r\x1b[K");
        }
    }
}
