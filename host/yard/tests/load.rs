//! `yard load`: the list and the subjects that it draws are those of its rule, which stands here once more.
mod common;

use common::{list_of, yard, yard_into_closed_pipe, yard_with_input};

/// Starts small, large and in between; Marsaglia's own is one of them.
const STARTS: [u64; 6] = [
    1,
    2,
    2463534242,
    88172645463325252,
    1 << 63,
    18446744073709551615,
];

/// Draws one number after the other.
struct Draws(u64);

impl Draws {
    fn next(&mut self) -> u64 {
        self.0 ^= self.0 << 13;
        self.0 ^= self.0 >> 7;
        self.0 ^= self.0 << 17;
        self.0
    }

    /// A text with a token for each place, told the draw and whether it is the last.
    fn text(&mut self, token: impl Fn(u64, bool) -> char) -> String {
        let last = self.next() % 6;
        let tokens = (0..=last).map(|place| token(self.next(), place == last).to_string());
        tokens.collect::<Vec<_>>().join(".")
    }

    fn pattern(&mut self) -> String {
        self.text(|drawn, last| match drawn % 10 {
            1 if last => '>',
            0 | 1 => '*',
            letter => b"abcdefgh"[letter as usize - 2].into(),
        })
    }

    fn subject(&mut self) -> String {
        self.text(|drawn, _| b"abcdefgh"[drawn as usize % 8].into())
    }
}

/// What is written for a list and, behind it, for so many subjects.
fn expected(start: u64, lines: usize, subjects: usize) -> [String; 2] {
    let mut draws = Draws(start);
    let head = format!("# yard load {start} {lines}");
    let lines = (1..=lines).map(|target| format!("{} {target}\n", draws.pattern()));
    let list: String = lines.collect();
    let orders: String = (0..subjects).map(|_| draws.subject() + "\n").collect();
    [
        format!("{head}\n{list}"),
        format!("{head} --subjects {subjects}\n{orders}"),
    ]
}

/// What the command writes where it has no trouble.
fn written(words: &[&str]) -> String {
    let said = yard(words);
    assert_eq!((said.status, said.err.as_str()), (0, ""), "{words:?}");
    said.out
}

/// What is said where the command turns back: nothing on standard output.
fn turned_back(words: &[&str]) -> String {
    let said = yard(words);
    assert_eq!((said.status, said.out.as_str()), (2, ""), "{words:?}");
    said.err
}

#[test]
fn lists_and_subjects_are_those_of_the_rule() {
    for start in STARTS {
        for (lines, subjects) in [(0, 0), (0, 3), (1, 1), (7, 40), (2048, 1000)] {
            let [list, orders] = expected(start, lines, subjects);
            let numbers = [start.to_string(), lines.to_string(), subjects.to_string()];
            let [start, lines, subjects] = numbers.each_ref().map(String::as_str);
            assert_eq!(written(&["load", start, lines]), list);
            let words = ["load", start, lines, "--subjects", subjects];
            assert_eq!(written(&words), orders);
            assert_eq!(written(&words), orders);
        }
    }
}

#[test]
fn the_same_numbers_in_other_words() {
    let [list, orders] = expected(1, 12, 8);
    assert_eq!(written(&["load", "--", "01", "012"]), list);
    assert_eq!(written(&["--subjects", "08", "load", "1", "12"]), orders);
}

#[test]
fn the_longest_list_is_accepted() {
    for start in STARTS {
        let list = written(&["load", &start.to_string(), "2048"]);
        let said = yard_with_input(&["check", "-"], list.as_bytes());
        assert_eq!((said.status, said.err.as_str()), (0, ""));
        assert!(said.out.starts_with("standard input: accepted\n"));
        assert!(said.out.contains(" 2,048 of     2,048, "), "{}", said.out);
    }
    let none = written(&["load", "1", "0"]);
    assert_eq!(yard_with_input(&["check", "-"], none.as_bytes()).status, 0);
}

#[test]
fn subjects_are_routed_by_their_list() {
    let list = list_of(&written(&["load", "1", "1600"]));
    let orders = written(&["load", "1", "1600", "--subjects", "500"]);
    let routed = yard_with_input(&["route", list.name()], orders.as_bytes());
    assert_eq!((routed.status, routed.err.as_str()), (1, ""));
    let tally = routed.out.lines().last().expect("the tally");
    assert!(
        tally.starts_with("500 subjects: ") && tally.ends_with(" 0 refused"),
        "{tally}"
    );
}

#[test]
fn a_start_of_zero() {
    for words in [
        &["load", "0", "3"][..],
        &["load", "0", "0"],
        &["load", "000", "2048", "--subjects", "5"],
    ] {
        let said = turned_back(words);
        assert!(
            said.starts_with("yard: the start is refused (28 ZeroStart): the start is 0, "),
            "{said}"
        );
    }
}

#[test]
fn wrong_numbers() {
    for start in ["x", "", "1.0", "+1", "0x10", "18446744073709551616"] {
        let said = turned_back(&["load", start, "3"]);
        let sentence = format!(
            "yard: `{start}` is no start: it is a number from 1 to {}\n",
            u64::MAX
        );
        assert!(
            said.starts_with(&sentence) && said.contains("--help"),
            "{said}"
        );
    }
    assert!(turned_back(&["load", "--", "-1", "3"]).starts_with("yard: `-1` is no start: "));
    assert!(turned_back(&["load", "-1", "3"]).starts_with("yard: there is no option -1\n"));
    for lines in ["x", "", "+3", "2049", "18446744073709551616"] {
        let said = turned_back(&["load", "1", lines]);
        let sentence =
            format!("yard: `{lines}` is no number of lines: a list has 0 to 2,048 of them\n");
        assert!(
            said.starts_with(&sentence) && said.contains("--help"),
            "{said}"
        );
    }
    for subjects in ["x", "", "-3", "+3", "18446744073709551616"] {
        let said = turned_back(&["load", "1", "3", "--subjects", subjects]);
        assert!(said.starts_with("yard: --subjects needs a number behind it, as --subjects 500\n"));
    }
}

#[test]
fn wrong_command_lines() {
    for words in [
        &["load"][..],
        &["load", "1"],
        &["load", "1", "2", "3"],
        &["load", "1", "2", "--subjects"],
        &["load", "1", "2", "--verbose"],
        &["load", "1", "2", "--depth", "3"],
        &["load", "1", "2", "--under", "a"],
        &["load", "1", "2", "--patterns"],
    ] {
        assert!(turned_back(words).contains("--help"));
    }
    for words in [
        &["check", "-"][..],
        &["route", "-", "a"],
        &["tree", "-"],
        &["crossing", "-"],
        &["parse", "a"],
        &["matches", "a", "a"],
        &["texts", "-"],
    ] {
        let said = turned_back(&[words, &["--subjects", "3"]].concat());
        assert!(said.starts_with("yard: --subjects is for yard load\n"));
    }
}

/// More subjects than could ever be kept or written: they are drawn as they are read.
#[test]
fn a_reader_that_goes_away() {
    for words in [
        &["load", "1", "2048", "--subjects", "18446744073709551615"][..],
        &[
            "load",
            "1",
            "0",
            "--json",
            "--subjects",
            "18446744073709551615",
        ],
    ] {
        let said = yard_into_closed_pipe(words, b"");
        assert_eq!((said.status, said.err.as_str()), (2, ""));
    }
}
