//! Moves on a snapshot whose counts may be any, over an area of any length: 19 unless they fit, for no subject too, behind what the subjects themselves are refused for.
use super::ground::Ground;
use super::lines;
use super::subjects::{Subjects, Text};
use crate::tally::{Family, Tally};
use compare::model_move::MOST_SUBJECTS;
use compare::table::NODE_WORDS;

const LINES: [(&str, u32); 3] = [("a", 1), ("b.c", 2), ("b.>", 3)];

const A: Text = Text::Lent(b"a");

/// No subject, one that is routed, one that is not, refused ones, one outside, as many as there may be, and more with all of that.
fn moves() -> Vec<Subjects> {
    let mut wrong = vec![Text::Lent(b"b.c"), Text::Lent(b"*"), Text::Behind(b"a")];
    wrong.resize(MOST_SUBJECTS + 1, Text::Lent(b""));
    let moves: [&[Text]; 9] = [
        &[],
        &[A],
        &[Text::Lent(b"none")],
        &[A, Text::Lent(b"b.c")],
        &[A, Text::Lent(b"")],
        &[A, Text::Behind(b"a")],
        &[A; MOST_SUBJECTS],
        &[A; MOST_SUBJECTS + 1],
        &wrong,
    ];
    moves.into_iter().map(Subjects::packed).collect()
}

/// Around a count; around so many that their words are more than a number can tell; the most.
fn nodes(count: usize) -> Vec<usize> {
    let wrapping = usize::MAX / NODE_WORDS;
    let mut all = vec![0, 1, usize::MAX - 1, usize::MAX];
    for near in [count, wrapping, 2 * wrapping] {
        all.extend([near - 1, near, near + 1, near + count + 1]);
    }
    all
}

/// The same, and counts whose sum with the words of the nodes wraps.
fn targets(count: usize, node_words: usize) -> Vec<usize> {
    let wrapping = usize::MAX - node_words;
    let mut all = vec![0, usize::MAX - 1, usize::MAX];
    for near in [count, wrapping] {
        let around = [0, 1, 2, count + 2];
        all.extend(around.map(|more| (near - 1).wrapping_add(more)));
    }
    all
}

pub fn run(tally: &mut Tally) {
    let sound = Ground::built(tally, &lines(&LINES));
    let (state, length) = (sound.snapshot, sound.area.len());
    let needed = state.nodes * NODE_WORDS + state.targets;
    let moves = moves();
    for lent_words in [0, NODE_WORDS - 1, needed - 1, needed, needed + 1, length] {
        for nodes in nodes(state.nodes) {
            for targets in targets(state.targets, nodes.wrapping_mul(NODE_WORDS)) {
                let ground = sound.changed(|ground| {
                    ground.snapshot.nodes = nodes;
                    ground.snapshot.targets = targets;
                    ground.lent_words = lent_words;
                });
                for subjects in &moves {
                    ground.call(tally, subjects, 0);
                    ground.call(tally, subjects, MOST_SUBJECTS);
                }
            }
        }
    }
    let part = "moves on a snapshot with any counts over areas of any length";
    tally.report(Family::Moves, part);
}
