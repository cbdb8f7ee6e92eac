//! The command line: a command, its arguments and its options.
use crate::shown::{grouped, shown};
use crate::trouble::Trouble;
use router::MAX_ENTRIES;
use std::ffi::{OsStr, OsString};
use std::str::FromStr;

/// What the options ask for.
#[derive(Debug, Default, PartialEq, Eq)]
pub struct Options {
    pub json: bool,
    pub verbose: bool,
    pub patterns: bool,
    pub depth: Option<usize>,
    pub under: Option<Vec<u8>>,
    pub subjects: Option<usize>,
}

/// A list, and the subjects of orders. Where there are none, they come from standard input.
#[derive(Debug, PartialEq, Eq)]
pub struct Orders {
    pub list: OsString,
    pub subjects: Vec<Vec<u8>>,
}

/// What is to be done.
#[derive(Debug, PartialEq, Eq)]
pub enum Command {
    Help,
    Version,
    Check {
        list: OsString,
    },
    Route(Orders),
    Move(Orders),
    Tree {
        list: OsString,
    },
    /// A list; a list and a pattern; or two patterns.
    Crossing {
        first: OsString,
        second: Option<OsString>,
    },
    Load {
        start: u64,
        lines: usize,
    },
    Parse {
        texts: Vec<Vec<u8>>,
    },
    Matches {
        pattern: Vec<u8>,
        subject: Vec<u8>,
    },
    Texts {
        file: OsString,
    },
}

/// A command with its options.
#[derive(Debug, PartialEq, Eq)]
pub struct Request {
    pub command: Command,
    pub options: Options,
}

fn usage(fault: String) -> Trouble {
    Trouble::Usage(fault)
}

/// The words that are no options, the options, and whether help or the version is asked for.
#[derive(Default)]
struct Sorted {
    words: Vec<OsString>,
    options: Options,
    help: bool,
    version: bool,
}

/// The value behind an option.
fn value(
    option: &str,
    arguments: &mut impl Iterator<Item = OsString>,
) -> Result<OsString, Trouble> {
    arguments
        .next()
        .ok_or_else(|| usage(format!("{option} needs a value behind it")))
}

fn depth_of(value: &OsString) -> Result<usize, Trouble> {
    let number = value.to_str().and_then(|word| word.parse().ok());
    number.ok_or_else(|| usage("--depth needs a number behind it, as --depth 3".into()))
}

/// A number in digits and nothing else, unless it is too large for its type.
fn digits<N: FromStr>(word: &OsStr) -> Option<N> {
    let plain = |word: &&str| word.bytes().all(|byte| byte.is_ascii_digit());
    word.to_str().filter(plain)?.parse().ok()
}

fn subjects_of(value: &OsStr) -> Result<usize, Trouble> {
    let fault = "--subjects needs a number behind it, as --subjects 500";
    digits(value).ok_or_else(|| usage(fault.into()))
}

fn sort(mut arguments: impl Iterator<Item = OsString>) -> Result<Sorted, Trouble> {
    let mut sorted = Sorted::default();
    while let Some(argument) = arguments.next() {
        match argument.to_str() {
            Some("--json") => sorted.options.json = true,
            Some("--verbose" | "-v") => sorted.options.verbose = true,
            Some("--patterns") => sorted.options.patterns = true,
            Some("--depth") => {
                sorted.options.depth = Some(depth_of(&value("--depth", &mut arguments)?)?);
            }
            Some("--under") => {
                sorted.options.under = Some(bytes(value("--under", &mut arguments)?));
            }
            Some("--subjects") => {
                let subjects = subjects_of(&value("--subjects", &mut arguments)?)?;
                sorted.options.subjects = Some(subjects);
            }
            Some("--help" | "-h") => sorted.help = true,
            Some("--version" | "-V") => sorted.version = true,
            Some("--") => sorted.words.extend(arguments.by_ref()),
            Some(option) if option.len() > 1 && option.starts_with('-') => {
                return Err(usage(format!("there is no option {option}")));
            }
            _ => sorted.words.push(argument),
        }
    }
    Ok(sorted)
}

fn bytes(word: OsString) -> Vec<u8> {
    word.into_encoded_bytes()
}

/// The one word that a command takes.
fn one(command: &str, what: &str, mut words: Vec<OsString>) -> Result<OsString, Trouble> {
    match (words.pop(), words.is_empty()) {
        (Some(word), true) => Ok(word),
        _ => Err(usage(format!("yard {command} takes one {what}"))),
    }
}

fn orders(command: &str, mut words: Vec<OsString>) -> Result<Orders, Trouble> {
    if words.is_empty() {
        return Err(usage(format!("yard {command} takes a list, and subjects")));
    }
    let list = words.remove(0);
    if words.is_empty() && list == "-" {
        return Err(usage(
            "the list and the subjects cannot both come from standard input".into(),
        ));
    }
    let subjects = words.into_iter().map(bytes).collect();
    Ok(Orders { list, subjects })
}

fn crossing(words: Vec<OsString>) -> Result<Command, Trouble> {
    let mut words = words.into_iter();
    match (words.next(), words.next(), words.next()) {
        (Some(first), second, None) => Ok(Command::Crossing { first, second }),
        _ => Err(usage(
            "yard crossing takes a list, a list and a pattern, or two patterns".into(),
        )),
    }
}

/// The start of a load. 0 is none, but that is for the router to say.
fn start_of(word: &OsStr) -> Result<u64, Trouble> {
    digits(word).ok_or_else(|| {
        let (word, most) = (shown(word.as_encoded_bytes()), u64::MAX);
        usage(format!(
            "`{word}` is no start: it is a number from 1 to {most}"
        ))
    })
}

fn lines_of(word: &OsStr) -> Result<usize, Trouble> {
    let lines = digits(word).filter(|&lines| lines <= MAX_ENTRIES);
    lines.ok_or_else(|| {
        let (word, most) = (shown(word.as_encoded_bytes()), grouped(MAX_ENTRIES));
        usage(format!(
            "`{word}` is no number of lines: a list has 0 to {most} of them"
        ))
    })
}

fn load(words: Vec<OsString>) -> Result<Command, Trouble> {
    match <[OsString; 2]>::try_from(words) {
        Ok([start, lines]) => Ok(Command::Load {
            start: start_of(&start)?,
            lines: lines_of(&lines)?,
        }),
        Err(_) => Err(usage(
            "yard load takes a start and a number of lines, as yard load 1 1600".into(),
        )),
    }
}

fn matches(words: Vec<OsString>) -> Result<Command, Trouble> {
    match <[OsString; 2]>::try_from(words) {
        Ok([pattern, subject]) => Ok(Command::Matches {
            pattern: bytes(pattern),
            subject: bytes(subject),
        }),
        Err(_) => Err(usage("yard matches takes a pattern and a subject".into())),
    }
}

fn parse(words: Vec<OsString>) -> Result<Command, Trouble> {
    if words.is_empty() {
        return Err(usage("yard parse takes one text or more".into()));
    }
    let texts = words.into_iter().map(bytes).collect();
    Ok(Command::Parse { texts })
}

fn command(name: &OsString, words: Vec<OsString>) -> Result<Command, Trouble> {
    match name.to_str() {
        Some("check") => one("check", "list", words).map(|list| Command::Check { list }),
        Some("route") => orders("route", words).map(Command::Route),
        Some("move") => orders("move", words).map(Command::Move),
        Some("tree") => one("tree", "list", words).map(|list| Command::Tree { list }),
        Some("crossing") => crossing(words),
        Some("load") => load(words),
        Some("parse") => parse(words),
        Some("matches") => matches(words),
        Some("texts") => one("texts", "file", words).map(|file| Command::Texts { file }),
        Some("help") => Ok(Command::Help),
        _ => Err(usage(format!(
            "there is no command {}",
            name.to_string_lossy()
        ))),
    }
}

/// Refuses an option that the command does not have.
fn check_options(command: &Command, options: &Options) -> Result<(), Trouble> {
    let tree = matches!(command, Command::Tree { .. });
    let routes = matches!(command, Command::Route(_) | Command::Move(_));
    let texts = matches!(command, Command::Texts { .. });
    let crossing = matches!(command, Command::Crossing { .. });
    let load = matches!(command, Command::Load { .. });
    let two = matches!(command, Command::Crossing { second, .. } if second.is_some());
    let misplaced = [
        (options.depth.is_some() && !tree, "--depth is for yard tree"),
        (options.under.is_some() && !tree, "--under is for yard tree"),
        (
            options.verbose && !tree && !routes && !crossing,
            "--verbose is for yard route, yard move, yard tree and yard crossing",
        ),
        (
            options.patterns && !two,
            "--patterns is for yard crossing with two patterns",
        ),
        (
            options.subjects.is_some() && !load,
            "--subjects is for yard load",
        ),
        (options.json && texts, "yard texts has no --json"),
    ];
    match misplaced.iter().find(|(wrong, _)| *wrong) {
        Some((_, fault)) => Err(usage((*fault).into())),
        None => Ok(()),
    }
}

/// The request that the arguments behind the program's name make.
pub fn read(arguments: impl Iterator<Item = OsString>) -> Result<Request, Trouble> {
    let mut sorted = sort(arguments)?;
    let command = if sorted.help {
        Command::Help
    } else if sorted.version {
        Command::Version
    } else if sorted.words.is_empty() {
        return Err(usage("no command is given".into()));
    } else {
        let name = sorted.words.remove(0);
        let command = command(&name, sorted.words)?;
        check_options(&command, &sorted.options)?;
        command
    };
    Ok(Request {
        command,
        options: sorted.options,
    })
}

#[cfg(test)]
mod tests {
    use super::*;

    fn request(words: &[&str]) -> Option<Request> {
        read(words.iter().map(OsString::from)).ok()
    }

    #[test]
    fn commands() {
        let check = request(&["check", "--json", "a.list"]);
        assert_eq!(
            check,
            Some(Request {
                command: Command::Check {
                    list: "a.list".into()
                },
                options: Options {
                    json: true,
                    ..Options::default()
                },
            })
        );
        let route = request(&["route", "-", "--", "--json"]).map(|request| request.command);
        assert_eq!(
            route,
            Some(Command::Route(Orders {
                list: "-".into(),
                subjects: vec![b"--json".to_vec()]
            }))
        );
        let whole_move = request(&["move", "-v", "l", "a", "b"]).map(|request| request.command);
        assert_eq!(
            whole_move,
            Some(Command::Move(Orders {
                list: "l".into(),
                subjects: vec![b"a".to_vec(), b"b".to_vec()]
            }))
        );
        let crossing = request(&["crossing", "l"]).map(|request| request.command);
        assert_eq!(
            crossing,
            Some(Command::Crossing {
                first: "l".into(),
                second: None
            })
        );
        let two = request(&["crossing", "--patterns", "a.*", ">"]);
        assert!(two.is_some_and(|request| request.options.patterns));
        let deep = request(&["tree", "l", "--depth", "3", "--under", "a.b"]);
        let options = deep.map(|request| (request.options.depth, request.options.under));
        assert_eq!(options, Some((Some(3), Some(b"a.b".to_vec()))));
    }

    #[test]
    fn loads() {
        let load = |start, lines| Some(Command::Load { start, lines });
        let plain = request(&["load", "0", "007"]);
        assert_eq!(plain.map(|request| request.command), load(0, 7));
        let most = request(&["load", "18446744073709551615", "2048", "--subjects", "9"]);
        let most = most.map(|request| (request.options.subjects, Some(request.command)));
        assert_eq!(most, Some((Some(9), load(u64::MAX, 2048))));
    }

    #[test]
    fn wrong_lines() {
        for words in [
            &[][..],
            &["check"],
            &["check", "a", "b"],
            &["rout", "a"],
            &["route"],
            &["route", "-"],
            &["move"],
            &["move", "-"],
            &["move", "a", "--depth", "3"],
            &["move", "a", "--subjects", "3"],
            &["tree", "a", "--depth"],
            &["tree", "a", "--depth", "x"],
            &["check", "a", "--jason"],
            &["matches", "a"],
            &["crossing"],
            &["crossing", "a", "b", "c"],
            &["crossing", "--patterns", "a"],
            &["matches", "--patterns", "a", "b"],
            &["parse"],
            &["check", "a", "--depth", "3"],
            &["route", "a", "b", "--under", "c"],
            &["check", "a", "-v"],
            &["texts", "a", "--json"],
            &["load"],
            &["load", "1"],
            &["load", "1", "2", "3"],
            &["load", "x", "2"],
            &["load", "", "2"],
            &["load", "+1", "2"],
            &["load", "-1", "2"],
            &["load", "--", "-1", "2"],
            &["load", "18446744073709551616", "2"],
            &["load", "1", "2049"],
            &["load", "1", "-2"],
            &["load", "1", "1e3"],
            &["load", "1", "2", "--subjects"],
            &["load", "1", "2", "--subjects", "x"],
            &["load", "1", "2", "--subjects", "-3"],
            &["load", "1", "2", "-v"],
            &["load", "1", "2", "--patterns"],
            &["check", "a", "--subjects", "3"],
            &["route", "a", "--subjects", "3"],
        ] {
            assert_eq!(request(words), None, "{words:?}");
        }
    }
}
