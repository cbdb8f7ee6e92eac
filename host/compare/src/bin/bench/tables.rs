//! The rows on lists: inserting all their lines, building the table, matching a subject in it.
use crate::row::row;
use compare::lists::Line;
use compare::original;
use compare::table::{List, Table};
use oracle::sublist::{Sublist, SublistBuilder};
use std::cell::RefCell;
use std::hint::black_box;

/// A list of the router.
pub fn inserted(lines: &[Line]) -> List {
    let bytes = lines.iter().map(|(pattern, _)| pattern.len()).sum();
    let mut list = List::with_room(lines.len(), bytes);
    let answers = lines
        .iter()
        .map(|(pattern, target)| list.insert(pattern, *target).number);
    assert_eq!(answers.sum::<u64>(), 0, "the patterns are accepted");
    list
}

/// The same list of the original.
pub fn their_list(lines: &[Line]) -> SublistBuilder<u32> {
    let mut builder = SublistBuilder::new();
    for (pattern, target) in lines {
        let text = std::str::from_utf8(pattern).expect("a pattern is UTF-8");
        builder
            .insert(text, *target)
            .expect("a pattern is accepted");
    }
    builder
}

pub fn built(list: &List) -> Table {
    Table::build(list, 0).expect("the list is accepted")
}

pub fn their_table(list: &SublistBuilder<u32>) -> Sublist<u32> {
    list.build(0).expect("the list is accepted")
}

/// The row on inserting all lines into an empty list.
fn inserts(name: &str, rounds: usize, lines: &[Line]) {
    row(
        name,
        rounds,
        &[lines],
        &[&|lines| inserted(lines).entries() as u64, &|lines| {
            black_box(their_list(lines));
            0
        }],
    );
}

/// The row on building the table of a list.
pub fn builds(name: &str, rounds: usize, lines: &[Line]) {
    let (list, theirs) = (inserted(lines), their_list(lines));
    let ours = |_: &()| built(&list).nodes as u64;
    let theirs = |_: &()| their_table(&theirs).node_count() as u64;
    assert_eq!(ours(&()), theirs(&()), "{name}: the nodes of the tables");
    row(name, rounds, &[()], &[&ours, &theirs]);
}

/// The row on matching subjects in the table of a list.
pub fn matches(name: &str, rounds: usize, lines: &[Line], subjects: &[Vec<u8>]) {
    let (table, theirs) = (built(&inserted(lines)), their_table(&their_list(lines)));
    let out = RefCell::new((vec![0; lines.len()], Vec::with_capacity(lines.len())));
    let ours = |subject: &Vec<u8>| table.match_subject(subject, &mut out.borrow_mut().0).first;
    let theirs = |subject: &Vec<u8>| {
        original::match_subject(&theirs, subject, &mut out.borrow_mut().1).first
    };
    for subject in subjects {
        assert_eq!(
            ours(subject),
            theirs(subject),
            "{name}: the lengths of the lists"
        );
    }
    row(name, rounds, subjects, &[&ours, &theirs]);
}

/// The three rows on a list, by its name.
pub fn rows(rounds: usize, name: &str, lines: &[Line], subjects: &[Vec<u8>]) {
    inserts(&format!("insert of {name}"), rounds, lines);
    builds(&format!("build of {name}"), rounds, lines);
    matches(&format!("match on {name}"), rounds, lines, subjects);
}
