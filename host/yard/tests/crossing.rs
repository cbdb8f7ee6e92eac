//! `yard crossing`: which lines and patterns one order can meet; and what `yard check` says of them.
mod common;

use common::{list_of, yard, yard_into_closed_pipe, yard_with_input, Said, YARD_LIST};

/// Two groups of different targets, one of the same. Line 4 stands between bindings that follow each other.
const SMALL: &str = "\
# a small yard
a.1 10
a.2 10
# between
a.3 10
b.1 20
a.5 10
a.* 30
b.* 20
c 1
c 2
";

/// What is said of `SMALL` behind its counts and their explanation, in short and in full.
const SMALL_IN_GROUPS: &str = "
Different targets: 5 pairs

  line 8     a.*  -> 30 (4 pairs)
      4 lines: 2-5, 7  -> 10  a.1

  line 10    c  -> 1 (1 pair)
      line 11    c  -> 2  c

The same target: 1 pair

  line 6     b.1  -> 20 (1 pair)
      line 9     b.*  -> 20  b.1
";
const SMALL_IN_PAIRS: &str = "
Different targets: 5 pairs

  line 8     a.*  -> 30 (4 pairs)
      line 2     a.1  -> 10  a.1
      line 3     a.2  -> 10  a.2
      line 5     a.3  -> 10  a.3
      line 7     a.5  -> 10  a.5

  line 10    c  -> 1 (1 pair)
      line 11    c  -> 2  c

The same target: 1 pair

  line 6     b.1  -> 20 (1 pair)
      line 9     b.*  -> 20  b.1
";

fn patterns(first: &str, second: &str) -> Said {
    yard(&["crossing", "--patterns", first, second])
}

/// What is said where the command turns back: nothing on standard output.
fn refusal(words: &[&str]) -> String {
    let said = yard(words);
    assert_eq!((said.status, said.out.as_str()), (2, ""), "{words:?}");
    said.err
}

#[test]
fn two_patterns_that_meet() {
    for (first, second, order) in [
        ("a.*", "*.b", "a.b"),
        ("a.>", "*.*.b", "a.x.b"),
        (">", ">", "x"),
        ("a.b", "a.b", "a.b"),
    ] {
        let said = patterns(first, second);
        assert_eq!((said.status, said.err.as_str()), (1, ""));
        assert_eq!(
            said.out,
            format!("An order can meet both `{first}` and `{second}`, and is Ambiguous where they stand in one list:\n    {order}\n")
        );
    }
}

#[test]
fn two_patterns_apart() {
    for (first, second) in [("a.>", "a"), ("*", "*.*"), ("a.b", "a.c")] {
        let said = patterns(first, second);
        assert_eq!((said.status, said.err.as_str()), (0, ""));
        let both = format!("both `{first}` and `{second}`");
        assert_eq!(said.out, format!("No order can meet {both}.\n"));
    }
}

#[test]
fn patterns_refused() {
    let first = refusal(&["crossing", "a..b", "a*"]);
    assert!(first.starts_with("yard: the first pattern is refused (6 EmptyToken): token 2 "));
    let second = refusal(&["crossing", "--patterns", "a", "a*"]);
    assert!(second.starts_with("yard: the second pattern is refused (9 IllegalChar): token 1 "));
    let empty = refusal(&["crossing", "", "a"]);
    assert!(empty.starts_with("yard: the first pattern is refused (3 Empty): "));
}

#[test]
fn patterns_with_the_names_of_files() {
    // Tests run in the folder of the package, which has the file Cargo.toml and the folder src.
    let list = refusal(&["crossing", "Cargo.toml", "Cargo.*"]);
    assert!(list.starts_with("Cargo.toml:1: "));
    let said = patterns("Cargo.toml", "Cargo.*");
    assert!(said.out.ends_with("\n    Cargo.toml\n") && said.status == 1);
    let folder = yard(&["crossing", "src", "*"]);
    assert!(folder.out.ends_with("\n    src\n") && folder.status == 1);
    let behind = refusal(&["crossing", "Cargo.*", "Cargo.toml"]);
    assert!(behind.starts_with("yard: the list stands before the pattern; "));
}

#[test]
fn a_list_that_is_not_there() {
    for words in [
        &["crossing", "no.list"][..],
        &["crossing", "lists/no.list"],
        &["crossing", "lists/no.list", "a.>"],
    ] {
        let name = words[1];
        assert!(refusal(words).starts_with(&format!("yard: {name}: cannot be read: ")));
    }
    let said = yard(&["crossing", "no.list", "a.>"]);
    assert_eq!(said.out, "No order can meet both `no.list` and `a.>`.\n");
    assert!(said
        .err
        .starts_with("yard: there is no file no.list, so it is taken for a pattern; "));
    assert_eq!(patterns("no.list", "a.>").err, "");
    assert_eq!(yard(&["crossing", "no.*", "a.>"]).err, "");
}

#[test]
fn wrong_command_lines() {
    for words in [
        &["crossing"][..],
        &["crossing", "a", "b", "c"],
        &["crossing", "--patterns", "a"],
        &["crossing", "--depth", "3", "a"],
    ] {
        assert!(refusal(words).contains("--help"));
    }
}

#[test]
fn a_new_line() {
    let list = list_of(SMALL);
    let said = yard(&["crossing", list.name(), "*.1"]);
    assert_eq!((said.status, said.err.as_str()), (1, ""));
    let head = format!(
        "{}: a new line `*.1` would meet 4 of the list's 9 lines\n\n",
        list.name()
    );
    assert!(said.out.starts_with(&head));
    let rows = "
  line 2     a.1  -> 10  a.1
  line 6     b.1  -> 20  b.1
  line 8     a.*  -> 30  a.1
  line 9     b.*  -> 20  b.1
";
    assert!(said.out.ends_with(rows), "{}", said.out);
    let none = yard(&["crossing", list.name(), "a.1.>"]);
    assert_eq!((none.status, none.err.as_str()), (0, ""));
    assert_eq!(
        none.out,
        format!(
            "{}: a new line `a.1.>` would meet none of the list's 9 lines\n",
            list.name()
        )
    );
}

#[test]
fn a_new_line_refused() {
    let (list, empty) = (list_of(SMALL), list_of("# nothing yet\n"));
    for name in [list.name(), empty.name()] {
        let pattern = refusal(&["crossing", name, ">.a"]);
        assert!(pattern.starts_with("yard: the pattern is refused (4 TailWildcardNotLast): "));
    }
    let faulty = list_of("a 1\na..b 2\n");
    for words in [
        &["crossing", faulty.name(), "a"][..],
        &["crossing", faulty.name()],
    ] {
        let fault = format!("{}:2: refused (6 EmptyToken): ", faulty.name());
        assert!(refusal(words).starts_with(&fault));
    }
}

#[test]
fn lists_from_standard_input() {
    let said = yard_with_input(&["crossing", "-", "*.1"], SMALL.as_bytes());
    assert_eq!((said.status, said.err.as_str()), (1, ""));
    assert!(said.out.starts_with("standard input: a new line `*.1` "));
    let said = yard_with_input(&["crossing", "-"], SMALL.as_bytes());
    assert_eq!((said.status, said.err.as_str()), (1, ""));
    assert!(said.out.starts_with("standard input: 6 pairs of lines "));
    let said = yard_with_input(&["check", "-"], SMALL.as_bytes());
    assert!(said.out.contains("\n  `yard crossing -` shows them\n"));
}

#[test]
fn pairs_of_lines() {
    let list = list_of(SMALL);
    let counts = format!(
        "{}: 6 pairs of lines can meet in one order, which is then Ambiguous: 5 with different targets, 1 with the same target\n\n",
        list.name()
    );
    for (words, told) in [
        (&["crossing", list.name()][..], SMALL_IN_GROUPS),
        (&["crossing", "--verbose", list.name()], SMALL_IN_PAIRS),
    ] {
        let said = yard(words);
        assert_eq!((said.status, said.err.as_str()), (1, ""));
        assert!(
            said.out.starts_with(&counts) && said.out.ends_with(told),
            "{}",
            said.out
        );
    }
}

#[test]
fn lists_without_pairs() {
    for text in ["", "a.> 1\n", "a.> 1\na 2\nb.a.* 3\n"] {
        let list = list_of(text);
        let said = yard(&["crossing", list.name()]);
        assert_eq!((said.status, said.err.as_str()), (0, ""));
        let none = "no two lines can meet in one order";
        assert_eq!(said.out, format!("{}: {none}\n", list.name()));
        assert!(!yard(&["check", list.name()]).out.contains("Note"));
    }
}

#[test]
fn the_largest_group_first() {
    let list = list_of("a.* 2\nb.* 2\na.1 3\na.2 4\nb.1 3\nb.2 5\n> 1\n");
    let said = yard(&["crossing", list.name()]);
    let groups = "
Different targets: 10 pairs

  line 7     >  -> 1 (6 pairs)
      2 lines: 1-2    -> 2  a.x
      2 lines: 3, 5   -> 3  a.1
      line 4     a.2  -> 4  a.2
      line 6     b.2  -> 5  b.2

  line 1     a.*  -> 2 (2 pairs)
      line 3     a.1  -> 3  a.1
      line 4     a.2  -> 4  a.2

  line 2     b.*  -> 2 (2 pairs)
      line 5     b.1  -> 3  b.1
      line 6     b.2  -> 5  b.2
";
    assert!(said.out.ends_with(groups), "{}", said.out);
}

#[test]
fn only_so_much_on_the_screen() {
    let targets: String = (0..60).map(|n| format!("a.{n} {}\n", 100 + n)).collect();
    let list = list_of(&format!("a.* 1\n{targets}"));
    let said = yard(&["crossing", list.name()]);
    assert!(said
        .out
        .ends_with("\n      and 40 more targets (--verbose shows every pair)\n"));
    let equal: String = (0..55).map(|n| format!("b.{n} 1\nb.{n} 2\n")).collect();
    let list = list_of(&equal);
    let said = yard(&["crossing", list.name()]);
    assert!(said
        .out
        .ends_with("\n\n  and 5 more lines with 5 pairs (--verbose shows every pair)\n"));
    let all = yard(&["crossing", "-v", list.name()]);
    assert!(all
        .out
        .ends_with("\n  line 109   b.54  -> 1 (1 pair)\n      line 110   b.54  -> 2  b.54\n"));
    let turns: String = (0..20).map(|n| format!("c.{n} {}\n", 7 + n % 2)).collect();
    let list = list_of(&format!("c.* 1\n{turns}"));
    let said = yard(&["crossing", list.name()]);
    assert!(said
        .out
        .contains("\n      10 lines: 2, 4, 6, 8, 10, 12 ...  -> 7  c.0\n"));
}

#[test]
fn the_longest_list_of_lines_that_all_meet() {
    let list = list_of(&"a.> 1\n".repeat(2048));
    let said = yard(&["crossing", list.name()]);
    assert_eq!((said.status, said.err.as_str()), (1, ""));
    assert!(said.out.contains(": 2,096,128 pairs of lines "));
    assert!(said.out.contains(
        "\n  line 1     a.>  -> 1 (2,047 pairs)\n      2,047 lines: 2-2048  -> 1  a.x\n"
    ));
    let away = yard_into_closed_pipe(&["crossing", "-v", list.name()], b"");
    assert_eq!((away.status, away.err.as_str()), (2, ""));
}

#[test]
fn orders_of_4096_bytes() {
    let [a, b] = ["a", "b"].map(|token| token.repeat(2048));
    let list = list_of(&format!("{}.* 1\n*.{b} 2\n", &a[1..]));
    let said = yard(&["crossing", list.name()]);
    assert!(said.out.contains(": 1 pair of lines can meet ") && said.status == 1);
    let list = list_of(&format!("{a}.* 1\n*.{b} 2\n"));
    assert_eq!(yard(&["crossing", list.name()]).status, 0);
}

#[test]
fn check_counts_the_pairs() {
    let list = list_of(SMALL);
    let said = yard(&["check", list.name()]);
    assert_eq!((said.status, said.err.as_str()), (0, ""));
    let note = format!(
        "\nNote: 6 pairs of lines can meet in one order, which is then Ambiguous: 5 with different targets, 1 with the same target\n  \
         `yard crossing {}` shows them\n",
        list.name()
    );
    assert!(said.out.contains(&note), "{}", said.out);
    let faulty = list_of("a 1\na 2\na..b 3\n");
    let said = yard(&["check", faulty.name()]);
    assert!(said.out.contains("REFUSED") && !said.out.contains("crossing"));
}

/// One line of the example list is made broad, and every order for the harbour's tracks 1 to 24 is Ambiguous.
#[test]
fn check_notices_a_silenced_yard() {
    let before = std::fs::read_to_string(YARD_LIST).expect("the example list");
    let mut lines: Vec<&str> = before.lines().collect();
    assert!(lines[1231].starts_with("yard.harbour.track.24.> "));
    lines[1231] = "yard.harbour.track.*.>  530";
    let edited = list_of(&lines.join("\n"));
    let (before, after) = (yard(&["check", YARD_LIST]), yard(&["check", edited.name()]));
    assert_eq!((before.status, after.status), (0, 0));
    // The line met lines 1700 and 1701. Now it meets those and the 23 lines of the other tracks.
    assert!(before.out.contains("\nNote: 32 pairs of lines can meet "));
    assert!(after.out.contains("\nNote: 55 pairs of lines can meet "));
    // The notes that there were before tell of less than they did.
    assert!(before.out.contains("\nNote: 3 patterns on several lines"));
    assert!(after.out.contains("\nNote: 2 patterns on several lines"));
    let broad = yard(&["crossing", edited.name()]).out;
    assert!(broad.contains("\n  line 1232  yard.harbour.track.*.>  -> 530 (25 pairs)\n"));
}
