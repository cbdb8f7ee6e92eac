//! Every short list of short patterns, with every short subject.
use crate::tables;
use crate::tally::{Family, Tally};
use compare::lists::{runs, Line};
use compare::random::Random;

fn texts(runs: &[Vec<&str>]) -> Vec<Vec<u8>> {
    let accepted = runs.iter().filter(|run| !run.is_empty());
    accepted.map(|run| run.join(".").into_bytes()).collect()
}

/// Each pattern of up to `most` tokens out of some, with `>` as the last too.
pub fn patterns(tokens: &[&str], most: usize) -> Vec<Vec<u8>> {
    let mut all = runs(tokens, most);
    let ended = runs(tokens, most - 1).into_iter();
    all.extend(ended.map(|run| [run.as_slice(), &[">"]].concat()));
    texts(&all)
}

/// Visits `lines` and each list that goes on from it with up to `more` of the patterns. Targets tell the lines apart.
fn each_list(
    patterns: &[Vec<u8>],
    more: usize,
    lines: &mut Vec<Line>,
    visit: &mut impl FnMut(&[Line]),
) {
    visit(lines);
    if more == 0 {
        return;
    }
    for pattern in patterns {
        lines.push((pattern.clone(), lines.len() as u32));
        each_list(patterns, more - 1, lines, visit);
        lines.pop();
    }
}

fn part(tally: &mut Tally, random: &mut Random, words: [&[&str]; 2], most: usize, length: usize) {
    let [pattern_words, subject_words] = words;
    let patterns = patterns(pattern_words, most);
    let subjects = texts(&runs(subject_words, most));
    each_list(&patterns, length, &mut Vec::new(), &mut |lines| {
        let Some(sides) = tables::build(tally, random, lines) else {
            return;
        };
        for subject in &subjects {
            sides.subject(tally, random, subject);
            if lines.len() < length {
                sides.defined(tally, subject);
            }
        }
    });
    tally.report(
        Family::Tables,
        &format!(
            "lists of up to {length} out of {} patterns, with {} subjects each",
            patterns.len(),
            subjects.len()
        ),
    );
}

pub fn run(tally: &mut Tally, random: &mut Random) {
    part(tally, random, [&["a", "b", "*"], &["a", "b", "c"]], 3, 2);
    part(tally, random, [&["a", "*"], &["a", "b"]], 3, 3);
    part(tally, random, [&["a", "*"], &["a", "b"]], 2, 5);
}
