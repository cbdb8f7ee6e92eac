//! `yard route`: where each order goes, and which lines of the list say so.
use crate::answers::{self, Answer};
use crate::command_line::{Options, Orders};
use crate::desk::{at_desk, Desk};
use crate::input::{InputLine, Subjects};
use crate::json::Object;
use crate::progress::{Progress, Writes};
use crate::shown::{counted, grouped};
use crate::trouble::{Status, Trouble};
use router::Resolution;
use std::io::{self, Write};

/// How many orders had each verdict.
#[derive(Default)]
struct Tally {
    routed: usize,
    no_stream: usize,
    ambiguous: usize,
    refused: usize,
}

impl Tally {
    fn count(&mut self, answer: &Answer<'_, '_>) {
        match answer.as_ref().map(|order| order.resolution) {
            Ok(Resolution::Routed(_)) => self.routed += 1,
            Ok(Resolution::NoStream) => self.no_stream += 1,
            Ok(Resolution::Ambiguous { .. }) => self.ambiguous += 1,
            Err(_) => self.refused += 1,
        }
    }

    fn total(&self) -> usize {
        self.routed + self.no_stream + self.ambiguous + self.refused
    }

    fn status(&self) -> Status {
        if self.routed == self.total() {
            Status::Good
        } else {
            Status::NotAll
        }
    }

    /// All verdicts in one line.
    fn text(&self) -> String {
        format!(
            "{}: {} Routed, {} NoStream, {} Ambiguous, {} refused",
            counted(self.total(), "subject"),
            grouped(self.routed),
            grouped(self.no_stream),
            grouped(self.ambiguous),
            grouped(self.refused)
        )
    }
}

/// Answers one order after the other.
struct Answers<'a, 'd, 'f, W> {
    desk: Desk<'d, 'f>,
    options: &'a Options,
    out: &'a mut W,
    tally: Tally,
}

impl<W: Write> Answers<'_, '_, '_, W> {
    fn answer(&mut self, subject: &InputLine) -> io::Result<()> {
        let answer = self.desk.order(&subject.text);
        self.tally.count(&answer);
        if self.options.json {
            let object = answers::json(Object::default(), subject, &answer);
            writeln!(self.out, "{}", object.end())
        } else {
            answers::write(self.out, subject, &answer, self.options.verbose)
        }
    }

    /// Subjects from standard input.
    fn answer_input(&mut self) -> Result<(), Trouble> {
        let mut subjects = Subjects::from_input();
        let mut progress = Progress::of("subjects", Writes::AsItGoes);
        while let Some(subject) = subjects.next(self.out)? {
            self.answer(&subject)?;
            progress.at(self.tally.total());
        }
        Ok(())
    }

    fn end(&mut self) -> io::Result<Status> {
        if self.tally.total() > 1 && !self.options.json {
            writeln!(self.out, "\n{}", self.tally.text())?;
        }
        Ok(self.tally.status())
    }
}

pub fn run(orders: &Orders, options: &Options, out: &mut impl Write) -> Result<Status, Trouble> {
    at_desk(&orders.list, options.json, out, |desk, out| {
        let mut answers = Answers {
            desk,
            options,
            out,
            tally: Tally::default(),
        };
        if orders.subjects.is_empty() {
            answers.answer_input()?;
        }
        for subject in &orders.subjects {
            answers.answer(&InputLine::whole(subject))?;
        }
        Ok(answers.end()?)
    })
}
