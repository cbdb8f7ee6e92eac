//! Times of the router and of the original on the same inputs, in one run, by turns. A ratio is the original's time by ours: above 1 the router is faster.
//!
//! bench [ROUNDS]
//! Each call counts by its fastest of so many rounds of about a millisecond. The lines are those of a Markdown table.
//! Both sides get bytes and check that they are UTF-8; under `known text` the original gets what is known to be UTF-8.
//! The rows on a made list, on the worst tables and on whole moves are tables of their own. So are those on crossings and on making texts, which the original does not have:
//! they stand beside the models written out in Rust. That of crossings parses with the original.
mod caches;
mod crossings;
mod made;
mod moves;
mod row;
mod snapshots;
mod tables;
mod texts;
mod worst;
mod yard;

use compare::lists::{self, Line};
use compare::random::Random;
use yard::Yard;

const ROUNDS: usize = 200;

/// Different subjects for the rows on tables.
const SUBJECTS: usize = 500;

/// So many subjects that the lines match, each another.
fn subjects(lines: &[Line], count: usize) -> Vec<Vec<u8>> {
    let mut random = Random::new(200);
    let mut subjects = Vec::new();
    while subjects.len() < count {
        let (pattern, _) = &lines[random.below(lines.len())];
        let subject = lists::subject_of(pattern, &mut random);
        if !subjects.contains(&subject) {
            subjects.push(subject);
        }
    }
    subjects
}

fn main() {
    let rounds = std::env::args()
        .nth(1)
        .and_then(|word| word.parse().ok())
        .unwrap_or(ROUNDS);
    let [small, large] = [lists::example_part(200), lists::example()];
    row::heading("call", row::ORIGINAL);
    texts::rows(rounds, &large);
    let matched = subjects(&small, SUBJECTS);
    for lines in [&small, &large] {
        tables::rows(rounds, &row::lines(lines.len()), lines, &matched);
    }
    let matched = yard::texts(matched);
    let [small_yard, large_yard] = [&small, &large].map(|lines| Yard::new(lines));
    for yard in [&small_yard, &large_yard] {
        snapshots::rows(rounds, yard, &matched);
    }
    snapshots::store(rounds, &large_yard);
    let many = yard::texts(subjects(&large, caches::MANY));
    caches::rows(rounds, &large_yard, &matched, &many);
    let long_lists = Yard::new(&lists::yard(&mut Random::new(1_600), 1_600));
    caches::long_lists(rounds, &long_lists, &matched);
    println!();
    row::heading("call on several subjects", row::ONE_BY_ONE);
    moves::rows(rounds, &large_yard, &matched);
    println!();
    row::heading("call on a made list", row::ORIGINAL);
    made::rows(rounds);
    println!();
    row::heading("call on the worst tables", row::ORIGINAL);
    worst::rows(rounds);
    println!();
    row::heading("call", row::MODEL);
    crossings::rows(rounds, &large);
    made::calls(rounds);
}
