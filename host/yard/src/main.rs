//! The command for a yard's binding list. `yard --help` says what it does.
#![forbid(unsafe_code)]

mod answers;
mod check;
mod command_line;
mod crossing;
mod desk;
mod faults;
mod help;
mod input;
mod json;
mod list;
mod list_file;
mod load;
mod meetings;
mod natural;
mod notes;
mod pairs;
mod progress;
mod route;
mod rows;
mod shown;
mod single;
mod tables;
mod texts;
mod tree;
mod tree_words;
mod trouble;
mod whole_move;

use command_line::{Command, Request};
use std::io::{self, BufWriter, Write};
use std::process::ExitCode;
use trouble::{Status, Trouble};

/// Bytes of output that are gathered before they are written.
const BUFFER: usize = 1 << 16;

fn run(request: &Request, out: &mut impl Write) -> Result<Status, Trouble> {
    let options = &request.options;
    match &request.command {
        Command::Help => Ok(out
            .write_all(help::TEXT.as_bytes())
            .map(|()| Status::Good)?),
        Command::Version => {
            Ok(writeln!(out, "yard {}", env!("CARGO_PKG_VERSION")).map(|()| Status::Good)?)
        }
        Command::Check { list } => check::run(list, options, out),
        Command::Route(orders) => route::run(orders, options, out),
        Command::Move(orders) => whole_move::run(orders, options, out),
        Command::Tree { list } => tree::run(list, options, out),
        Command::Crossing { first, second } => {
            crossing::run(first, second.as_deref(), options, out)
        }
        Command::Load { start, lines } => load::run(*start, *lines, options, out),
        Command::Parse { texts } => single::parse(texts, options, out),
        Command::Matches { pattern, subject } => single::matches(pattern, subject, options, out),
        Command::Texts { file } => texts::run(file, out),
    }
}

fn answer(request: &Request) -> Result<Status, Trouble> {
    let mut out = BufWriter::with_capacity(BUFFER, io::stdout().lock());
    let told = run(request, &mut out);
    let flushed = out.flush();
    let status = told?;
    flushed?;
    Ok(status)
}

fn main() -> ExitCode {
    let arguments = std::env::args_os().skip(1);
    let done = command_line::read(arguments).and_then(|request| answer(&request));
    match done {
        Ok(status) => status.into(),
        Err(trouble) => {
            trouble.tell();
            Status::Refused.into()
        }
    }
}
