//! Lists of patterns of several kinds, and subjects for them.
use crate::random::Random;

/// A pattern and its target.
pub type Line = (Vec<u8>, u32);

/// Two tokens that have one hash, also with any common text behind both.
pub const CLASH: [&str; 2] = ["8yn0iYCKYHlIj4-BwPqk", "GReLUrM4wMqfg9yzV3KQ"];

const AREAS: [&str; 8] = [
    "north",
    "south",
    "east",
    "west",
    "depot-1",
    "depot-2",
    "hall-3",
    "weiche-ö",
];

const DEVICES: [(&str, [&str; 3]); 6] = [
    ("points", ["set", "locked", "state"]),
    ("signal", ["aspect", "lamp", "state"]),
    ("track", ["occupied", "locked", "current"]),
    ("crossing", ["close", "open", "state"]),
    ("vehicle", ["position", "speed", "door"]),
    ("panel", ["key", "lamp", "alarm"]),
];

/// The devices of one kind in one area.
const NUMBERS: usize = 40;

/// A subject of the yard: `yard.north.points.17.set`.
pub fn yard_subject(random: &mut Random) -> Vec<u8> {
    let area = random.pick(&AREAS);
    let (device, actions) = DEVICES[random.below(DEVICES.len())];
    let action = random.pick(&actions);
    format!("yard.{area}.{device}.{}.{action}", random.below(NUMBERS)).into_bytes()
}

/// A pattern of the yard: a subject, or one with wildcards, as `yard.*.points.>`.
fn yard_pattern(random: &mut Random) -> Vec<u8> {
    let subject = yard_subject(random);
    let mut tokens: Vec<&[u8]> = subject.split(|&byte| byte == b'.').collect();
    match random.below(12) {
        0 => tokens[1] = b"*",
        1 | 2 => tokens[3] = b"*",
        3 => tokens[4] = b"*",
        4 => {
            tokens[1] = b"*";
            tokens[3] = b"*";
        }
        5 => tokens.splice(3.., [&b">"[..]]).for_each(drop),
        6 if random.once_in(4) => {
            tokens[1] = b"*";
            tokens.splice(3.., [&b">"[..]]).for_each(drop);
        }
        7 if random.once_in(8) => tokens.splice(2.., [&b">"[..]]).for_each(drop),
        8 if random.once_in(40) => tokens.splice(1.., [&b">"[..]]).for_each(drop),
        _ => (),
    }
    tokens.join(&b'.')
}

/// A list as a yard has it: panels, each with the patterns that it listens to.
pub fn yard(random: &mut Random, count: usize) -> Vec<Line> {
    (0..count)
        .map(|_| (yard_pattern(random), random.below(60) as u32))
        .collect()
}

/// The example list of a whole yard.
const EXAMPLE: &str = include_str!("../../../examples/yard.list");

/// `pattern target`, with a comment behind it or none.
fn example_line(line: &str) -> Option<Line> {
    let mut words = line.split_whitespace();
    let pattern = words.next().filter(|word| !word.starts_with('#'))?;
    let target = words.next()?.parse().ok()?;
    Some((pattern.as_bytes().to_vec(), target))
}

/// The lines of the example list, but for those with a blank inside.
pub fn example() -> Vec<Line> {
    EXAMPLE.lines().filter_map(example_line).collect()
}

/// So many lines of the example list, spread evenly over it; all, if it has fewer.
pub fn example_part(count: usize) -> Vec<Line> {
    let lines = example();
    let count = count.min(lines.len());
    (0..count)
        .map(|place| lines[place * lines.len() / count].clone())
        .collect()
}

/// Each run of up to `most` of the tokens, the empty one first.
pub fn runs<T: Copy>(tokens: &[T], most: usize) -> Vec<Vec<T>> {
    let mut all = vec![vec![]];
    let mut from = 0;
    for _ in 0..most {
        let end = all.len();
        for index in from..end {
            for &token in tokens {
                let longer = [all[index].as_slice(), &[token]].concat();
                all.push(longer);
            }
        }
        from = end;
    }
    all
}

/// The run of ten tokens whose stars are the bits of a number.
pub fn run_of_ten(number: usize) -> Vec<u8> {
    let token = |place: usize| if number >> place & 1 == 1 { "*" } else { "a" };
    let tokens: Vec<&str> = (0..10).map(token).collect();
    tokens.join(".").into_bytes()
}

/// All 1,024 runs of ten tokens out of `a` and `*`, each with an end behind it.
pub fn runs_of_ten(end: &str) -> Vec<Line> {
    let pattern = |number| [&run_of_ten(number), end.as_bytes()].concat();
    let lines = (0..1024).map(|number| (pattern(number), number as u32));
    lines.collect()
}

/// A subject that a pattern matches: `*` is a number, `>` one token or two.
pub fn subject_of(pattern: &[u8], random: &mut Random) -> Vec<u8> {
    let tokens = pattern
        .split(|&byte| byte == b'.')
        .map(|token| match token {
            b"*" => random.below(100).to_string().into_bytes(),
            b">" => random.pick(&["state", "axle.3"]).as_bytes().to_vec(),
            _ => token.to_vec(),
        });
    let tokens: Vec<Vec<u8>> = tokens.collect();
    tokens.join(&b'.')
}
