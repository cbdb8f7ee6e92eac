//! `yard move`: all orders are routed as `yard route` routes them, or the first that is not holds them up.
mod common;

use common::{list_of, yard, yard_with_input, Said};

/// `c`, `d` and what begins with `x` are routed; `a.b` is Ambiguous; no line matches `a`.
const LIST: &str = "a.b 1\n*.b 3\na.b 5\nc 7\nd 8\nx.> 9\n";

/// Calls `yard move` or `yard route` with subjects as words.
fn called(command: &str, subjects: &[&str]) -> Said {
    let list = list_of(LIST);
    let said = yard(&[&[command, list.name()], subjects].concat());
    assert_eq!(said.err, "");
    said
}

/// What `yard route` says of each order by itself.
fn routes(subjects: &[&str]) -> String {
    let route = |subject: &&str| called("route", &[*subject]).out;
    subjects.iter().map(route).collect()
}

#[track_caller]
fn moves(subjects: &[&str], status: i32, out: &str) {
    let said = called("move", subjects);
    assert_eq!((said.status, said.out.as_str()), (status, out));
}

#[test]
fn every_order_is_routed() {
    for subjects in [&["c"][..], &["d", "c", "d"], &["x.y.z", "d"]] {
        let (answers, orders) = (routes(subjects), subjects.len());
        let closing = format!("{answers}\nmove of {orders}: every order is routed\n");
        moves(subjects, 0, &closing);
    }
    let routed = called("move", &["d", "c"]).out;
    assert!(routed.starts_with("d\n    Routed to 8\n    line 5     d  -> 8\nc\n"));
}

#[test]
fn the_first_that_is_not_routed() {
    for (subjects, place, reason) in [
        (&["a"][..], 0, "no line matches"),
        (&["c", "a", "a.b"], 1, "no line matches"),
        (&["c", "d", "a.b", "a"], 2, "3 lines match"),
    ] {
        let (answer, orders) = (routes(&subjects[place..=place]), subjects.len());
        let number = place + 1;
        let closing = format!("held up at order {number} of {orders}: {reason}");
        let out = format!("{answer}\n{closing}; no order of the move goes out\n");
        moves(subjects, 1, &out);
    }
}

#[test]
fn a_refused_subject_comes_before_any_verdict() {
    let said = called("move", &["a", "a.b", "c..d", "*"]);
    assert_eq!(said.status, 1);
    let mut lines = said.out.lines();
    assert_eq!(lines.next(), Some("c..d"));
    let refused = "    refused (6 EmptyToken): subject 3 (counted from 1): token 2 ";
    assert!(lines.next().is_some_and(|line| line.starts_with(refused)));
    assert!(said.out.ends_with(
        "\n\nheld up at order 3 of 4: its subject is refused; no order of the move goes out\n"
    ));
    let empty = called("move", &["c", ""]);
    assert!(empty.out.starts_with("\n    refused (3 Empty): subject 2 "));
}

#[test]
fn so_many_and_no_more() {
    let most = called("move", &["c"; 64]);
    assert_eq!(most.status, 0);
    assert!(most.out.ends_with("\nmove of 64: every order is routed\n"));
    let too_large = "the move is refused (22 SetTooLarge): the move has more than 64 subjects: ";
    let over = called("move", &["c..d"; 65]);
    assert_eq!((over.status, over.out.lines().count()), (1, 1));
    assert!(over.out.starts_with(too_large));
    assert!(over.out.ends_with("; no order of the move goes out\n"));
    let list = list_of(LIST);
    let endless = "c\n".repeat(1_000_000);
    let said = yard_with_input(&["move", list.name()], endless.as_bytes());
    assert_eq!((said.status, said.out.as_str()), (1, over.out.as_str()));
}

#[test]
fn a_move_of_none() {
    moves(&[], 0, "move of 0: there is no order in it\n");
    let list = list_of(LIST);
    let said = yard_with_input(&["move", list.name()], b"\n# nothing\n\r\n");
    assert_eq!(said.out, "move of 0: there is no order in it\n");
}

#[test]
fn subjects_from_standard_input() {
    let list = list_of(LIST);
    let input = b"# points\r\n\nc\r\n# the signal\nd";
    let said = yard_with_input(&["move", list.name()], input);
    assert_eq!((said.status, said.err.as_str()), (0, ""));
    assert_eq!(said.out, called("move", &["c", "d"]).out);
    let long = [b"c\n", [b'a'; 100_000].as_slice()].concat();
    let said = yard_with_input(&["move", list.name()], &long);
    assert!(said.out.contains("refused (1 TooLong): subject 2 ") && said.out.len() < 1000);
}

#[test]
fn a_list_from_standard_input() {
    let said = yard_with_input(&["move", "-", "d", "c"], LIST.as_bytes());
    assert_eq!(said.out, called("move", &["d", "c"]).out);
    let said = yard_with_input(&["move", "-"], LIST.as_bytes());
    assert_eq!((said.status, said.out.as_str()), (2, ""));
    assert!(said.err.contains("cannot both come from standard input"));
}

#[test]
fn only_so_many_lines_of_one_order() {
    let list = list_of(&"a 1\n".repeat(25));
    for option in [&["-v"][..], &[]] {
        let call = |command| yard(&[&[command, list.name(), "a"], option].concat()).out;
        let route = call("route");
        assert!(call("move").starts_with(&format!("{route}\nheld up at order 1 of 1: 25 lines")));
        assert_eq!(route.contains("(peak 1)"), !option.is_empty());
    }
}
