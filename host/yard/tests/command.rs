//! The command as its users call it: what it prints, where, and its exit status.
mod common;

use common::{list_of, yard, yard_with_input};

const SMALL: &str = "\
# a small yard
yard.north.points.>       12
yard.*.points.17.set      13   # trial

yard.north.signal.*.aspect 40
gleis 3.weiche 1          7
";

#[test]
fn help_and_version() {
    let help = yard(&["--help"]);
    assert_eq!((help.status, help.err.as_str()), (0, ""));
    for word in [
        "check",
        "route",
        "move",
        "tree",
        "crossing",
        "--patterns",
        "load",
        "--subjects",
        "parse",
        "matches",
        "Exit status",
        "--json",
    ] {
        assert!(help.out.contains(word), "{word}");
    }
    assert_eq!(yard(&["route", "--help"]).out, help.out);
    assert_eq!(yard(&["help"]).out, help.out);
    assert!(yard(&["--version"]).out.starts_with("yard "));
}

#[test]
fn wrong_command_lines() {
    for words in [&[][..], &["chekc"], &["check"], &["check", "--jason", "x"]] {
        let said = yard(words);
        assert_eq!((said.status, said.out.as_str()), (2, ""), "{words:?}");
        assert!(said.err.starts_with("yard: ") && said.err.contains("--help"));
    }
    let missing = yard(&["check", "no such file"]);
    assert_eq!((missing.status, missing.out.as_str()), (2, ""));
    assert!(missing
        .err
        .starts_with("yard: no such file: cannot be read"));
}

#[test]
fn check_of_a_list() {
    let list = list_of(SMALL);
    let said = yard(&["check", list.name()]);
    assert_eq!((said.status, said.err.as_str()), (0, ""));
    assert!(said
        .out
        .starts_with(&format!("{}: accepted\n", list.name())));
    let figures: Vec<Vec<&str>> = said
        .out
        .lines()
        .filter(|line| line.contains(" left"))
        .map(|line| line.split_whitespace().collect())
        .collect();
    assert_eq!(
        figures[0],
        ["entries", "4", "of", "2,048,", "2,044", "left"]
    );
    assert_eq!(figures[4][..3], ["worst", "case", "2"]);
}

#[test]
fn check_from_standard_input() {
    let said = yard_with_input(&["check", "-"], b"a 1\n");
    assert_eq!(said.status, 0);
    assert!(said.out.starts_with("standard input: accepted"));
}

#[test]
fn equal_patterns_are_pointed_out() {
    let list = list_of("a.b 1\nc 2\na.b 3\n");
    let said = yard(&["check", list.name()]);
    assert_eq!(said.status, 0);
    assert!(said.out.contains("Note: 1 pattern on several lines"));
    assert!(said.out.contains("  lines 1, 3: a.b\n"));
}

#[test]
fn a_second_number_is_pointed_out() {
    let list = list_of("a.b 1 2\n");
    let said = yard(&["check", list.name()]);
    assert!(said.out.contains("Note: 1 pattern with a blank inside"));
    assert!(said.out.contains("  line 1: a.b 1\n"));
}

#[test]
fn every_fault_with_its_line() {
    let list = list_of("a 1\n\nb..c 2\n# x\nd\n>.e 4\nf 5x\nyard.\x07 6\n");
    let said = yard(&["check", list.name()]);
    assert_eq!((said.status, said.err.as_str()), (2, ""));
    assert!(said.out.contains("REFUSED, 5 faults"));
    for fault in [
        ":3: refused (6 EmptyToken): token 2 ",
        ":5: no target",
        ":6: refused (4 TailWildcardNotLast): token 1 ",
        ":7: `5x` is no target",
        ":8: refused (8 ControlChar): token 2 (counted from 1) has the control character U+0007",
    ] {
        let line = format!("{}{fault}", list.name());
        assert!(said.out.contains(&line), "{line}");
    }
    for command in ["route", "move"] {
        let said = yard(&[command, list.name(), "a"]);
        assert_eq!((said.status, said.out.as_str()), (2, ""));
        assert!(said.err.contains(":3: refused (6 EmptyToken)"));
    }
}

#[test]
fn many_faults_are_counted() {
    let list = list_of(&"a..b 1\n".repeat(1000));
    let said = yard(&["check", list.name()]);
    assert!(said.out.contains("REFUSED, 1,000 faults"));
    assert!(said.out.contains("and 900 more faults"));
}

#[test]
fn bytes_that_are_no_utf8() {
    let list = common::list_of_bytes(b"a.\xc0\x80 1\n");
    let said = yard(&["check", list.name()]);
    assert!(said.out.contains(":1: refused (2 NotUtf8): byte 3 "));
    let list = list_of(SMALL);
    let said = yard_with_input(&["route", list.name()], b"a\xff\n");
    assert_eq!(said.status, 1);
    assert!(said
        .out
        .starts_with("a\\xFF\n    refused (2 NotUtf8): byte 2 "));
}

#[test]
fn an_order_that_is_routed() {
    let list = list_of(SMALL);
    let said = yard(&["route", list.name(), "yard.north.signal.4.aspect"]);
    assert_eq!((said.status, said.err.as_str()), (0, ""));
    assert_eq!(
        said.out,
        "yard.north.signal.4.aspect\n    Routed to 40\n    line 5     yard.north.signal.*.aspect  -> 40\n"
    );
}

#[test]
fn lines_in_the_routers_order() {
    let list = list_of("a.b 1\n> 2\n*.b 3\na.> 4\na.b 5\n");
    let said = yard(&["route", "-v", list.name(), "a.b"]);
    assert_eq!(said.status, 1);
    assert_eq!(
        said.out,
        "a.b\n    Ambiguous: 5 lines match, the order goes nowhere (peak 2)\n    line 2     >  -> 2\n    line 4     a.>  -> 4\n    \
         line 1     a.b  -> 1\n    line 5     a.b  -> 5\n    line 3     *.b  -> 3\n"
    );
}

#[test]
fn orders_that_go_nowhere() {
    let list = list_of(SMALL);
    let route = |subject: &str| yard(&["route", list.name(), subject]);
    for (subject, hint) in [
        ("tram.1", "no line begins with `tram`"),
        (
            "yard.south",
            "lines go along as far as `yard.*`; each goes on with more",
        ),
        (
            "yard.south.signal",
            "lines go along as far as `yard.*`; none goes on with `signal`",
        ),
    ] {
        let said = route(subject);
        assert_eq!(said.status, 1);
        assert!(
            said.out.contains("NoStream") && said.out.contains(hint),
            "{}",
            said.out
        );
    }
    let both = route("yard.north.points.17.set");
    assert!(both.out.contains("Ambiguous: 2 lines match") && both.status == 1);
    let refused = route("yard.*");
    assert!(
        refused
            .out
            .contains("refused (7 WildcardNotAllowed): token 2 ")
            && refused.status == 1
    );
    let empty = route("");
    assert!(empty.out.contains("refused (3 Empty)") && empty.status == 1);
}

#[test]
fn subjects_from_standard_input() {
    let list = list_of(SMALL);
    let input = b"# orders\r\n\ngleis 3.weiche 1\r\nyard.north.points.1\n";
    let said = yard_with_input(&["route", list.name()], input);
    assert_eq!(said.status, 0);
    assert!(said.out.contains("gleis 3.weiche 1\n    Routed to 7\n"));
    assert!(said
        .out
        .ends_with("2 subjects: 2 Routed, 0 NoStream, 0 Ambiguous, 0 refused\n"));
}

#[test]
fn a_line_without_end() {
    let list = list_of(SMALL);
    let said = yard_with_input(&["route", list.name()], &vec![b'a'; 3_000_000]);
    assert_eq!(said.status, 1);
    assert!(said.out.contains("refused (1 TooLong)") && said.out.len() < 1000);
}

#[test]
fn many_subjects() {
    let list = list_of(SMALL);
    let input: String = (0..100_000)
        .map(|n| format!("yard.north.points.{n}.state\n"))
        .collect();
    let said = yard_with_input(&["route", list.name()], input.as_bytes());
    assert_eq!(said.status, 0);
    assert!(said
        .out
        .ends_with("100,000 subjects: 100,000 Routed, 0 NoStream, 0 Ambiguous, 0 refused\n"));
}

#[test]
fn only_so_many_lines_of_one_order() {
    let list = list_of(&"a 1\n".repeat(25));
    let said = yard(&["route", list.name(), "a"]);
    assert!(said.out.contains("and 5 more lines (--verbose shows all)"));
    assert_eq!(
        yard(&["route", "-v", list.name(), "a"]).out.lines().count(),
        27
    );
}

#[test]
fn the_tree() {
    let list = list_of("a.b 1\n> 2\n*.b 3\na.> 4\na.b 5\na.10 6\na.9 7\n");
    let said = yard(&["tree", list.name()]);
    assert_eq!(said.status, 0);
    let tree = "\
(root)
├── >  -> 2 (line 2)
├── a
│   ├── >  -> 4 (line 4)
│   ├── 9  -> 7 (line 7)
│   ├── 10  -> 6 (line 6)
│   └── b  -> 1 (line 1), 5 (line 5)
└── *
    └── b  -> 3 (line 3)
";
    assert_eq!(
        said.out,
        format!("{}: 7 nodes for 7 lines\n{tree}", list.name())
    );
}

#[test]
fn parts_of_the_tree() {
    let list = list_of(SMALL);
    let deep = yard(&["tree", "--depth", "1", list.name()]);
    assert!(deep
        .out
        .ends_with("(root)\n├── gleis 3  ... 1 node below\n└── yard  ... 9 nodes below\n"));
    let under = yard(&["tree", "--under", "yard.*.points", list.name()]);
    assert!(under
        .out
        .ends_with("yard.*.points\n└── 17\n    └── set  -> 13 (line 3)\n"));
    let nothing = yard(&["tree", "--under", "yard.x", list.name()]);
    assert_eq!((nothing.status, nothing.out.as_str()), (2, ""));
    assert!(yard(&["tree", "-v", list.name()]).out.contains("[node 1]"));
}

#[test]
fn tokens_of_one_hash() {
    let [a, b] = ["8yn0iYCKYHlIj4-BwPqk", "GReLUrM4wMqfg9yzV3KQ"];
    let list = list_of(&format!("{a} 1\n{b} 2\n"));
    let said = yard(&["tree", list.name()]);
    assert!(said
        .out
        .contains(&format!("└── {a} = {b}  -> 1 (line 1), 2 (line 2)\n")));
}

#[test]
fn single_texts() {
    let said = yard(&["parse", "yard.*", "a..b"]);
    assert_eq!(said.status, 1);
    assert!(said.out.starts_with(
        "yard.*\n    as a pattern: accepted, 2 tokens\n    as a subject: refused (7 "
    ));
    assert_eq!(yard(&["parse", "yard"]).status, 0);
    let matches = |pattern, subject| yard(&["matches", pattern, subject]);
    assert_eq!(matches("a.>", "a.b").status, 0);
    assert_eq!(matches("a.>", "a").out, "does not match\n");
    assert_eq!(matches("a.>", "a").status, 1);
    let refused = matches("a", "a*");
    assert_eq!((refused.status, refused.out.as_str()), (2, ""));
    assert!(refused
        .err
        .contains("the subject is refused (9 IllegalChar)"));
}

#[test]
fn a_reader_that_goes_away() {
    let list = list_of(SMALL);
    let input = "yard.north.points.1\n".repeat(200_000);
    let said = common::yard_into_closed_pipe(&["route", list.name()], input.as_bytes());
    assert_eq!((said.status, said.err.as_str()), (2, ""));
}
