//! Drawn moves: mostly routed whole, of up to as many subjects as there may be and some more.
use super::subjects::Subjects;
use compare::model::Tree;
use compare::model_move::MOST_SUBJECTS;
use compare::original;
use compare::random::Random;

/// Moves of up to so many subjects are drawn.
const MOST: usize = MOST_SUBJECTS + 2;

/// How many subjects: few, any number, or about as many as there may be.
fn count(random: &mut Random) -> usize {
    match random.below(8) {
        0 => 1,
        1 | 2 => random.below(MOST + 1),
        3 => MOST - random.below(5),
        _ => random.below(9),
    }
}

/// A number that may be any: mostly near the bytes' end, such that a sum wraps, or one of which only the high bits are wrong.
fn any_number(random: &mut Random, bytes: usize) -> usize {
    match random.below(6) {
        0 => usize::MAX - random.below(bytes + 2),
        1 => random.draw() as usize,
        2 => bytes + random.below(3),
        3 => (1 << (32 + random.below(32))) + random.below(bytes + 1),
        _ => random.below(bytes + 1),
    }
}

/// Some numbers of the spans become others, or some bytes are not lent.
fn spoil(random: &mut Random, subjects: &mut Subjects) {
    let bytes = subjects.lent_bytes;
    for _ in 0..random.below(3) {
        if !subjects.spans.is_empty() {
            let at = random.below(subjects.spans.len());
            subjects.spans[at] = any_number(random, bytes);
        }
    }
    if random.once_in(2) {
        subjects.lent_bytes -= random.below(bytes.min(5) + 1);
    }
}

/// Texts that lie apart, or equal ones in one place.
fn spans(random: &mut Random, texts: &[&[u8]]) -> Subjects {
    if random.once_in(2) {
        return Subjects::of(texts);
    }
    let mut different = texts.to_vec();
    different.sort_unstable();
    different.dedup();
    let once = Subjects::of(&different);
    let span = |text| {
        let place = different.partition_point(|other| other < text);
        [once.spans[2 * place], once.spans[2 * place + 1]]
    };
    let spans = texts.iter().flat_map(span).collect();
    Subjects::new(once.bytes, spans)
}

/// Places for the targets of so many subjects: mostly enough.
fn places(random: &mut Random, count: usize) -> usize {
    match random.below(12) {
        0 => count.saturating_sub(1),
        1 => random.below(count + 1),
        2 => count + 1,
        3 => MOST_SUBJECTS,
        _ => count,
    }
}

/// The texts that are subjects with a list of one target.
pub fn routed(texts: &[Vec<u8>], mut length: impl FnMut(&[u8]) -> usize) -> Vec<&[u8]> {
    let mut is_routed = |text: &[u8]| original::parse_literal(text).accepted() && length(text) == 1;
    let texts = texts.iter().map(Vec::as_slice);
    texts.filter(|text| is_routed(text)).collect()
}

/// The same by the tree of a list.
pub fn routed_by<'a>(tree: &Tree, texts: &'a [Vec<u8>]) -> Vec<&'a [u8]> {
    let mut list = Vec::new();
    routed(texts, |text| {
        tree.walk(text, &mut list);
        list.len()
    })
}

/// A move, and the places of its output. All its subjects are among those that are routed, or some of them, or the last, are any.
pub fn whole_move(random: &mut Random, any: &[Vec<u8>], routed: &[&[u8]]) -> (Subjects, usize) {
    let count = count(random);
    let rarely = if random.once_in(3) { 4 } else { 2 * MOST };
    let last = random.once_in(4);
    let text = |place| {
        let may_be_any = routed.is_empty() || last && place + 1 == count;
        if may_be_any || random.once_in(rarely) {
            any[random.below(any.len())].as_slice()
        } else {
            routed[random.below(routed.len())]
        }
    };
    let texts: Vec<&[u8]> = (0..count).map(text).collect();
    let mut subjects = spans(random, &texts);
    if random.once_in(12) {
        spoil(random, &mut subjects);
    }
    if random.once_in(6) {
        subjects = subjects.with_odd_number();
    }
    (subjects, places(random, count))
}
