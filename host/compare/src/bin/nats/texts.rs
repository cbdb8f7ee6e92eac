//! Random patterns and subjects that both grammars accept.
use compare::random::Random;

/// Tokens that come up often, so that patterns and subjects meet.
const COMMON: [&str; 7] = ["a", "ab", "b", "yard", "points", "gleis-ä", "北"];

/// Characters of other tokens: legal in both grammars. NATS has no whitespace in a subject, and `*` and `>` stand alone in both.
const LETTERS: &[u8] = b"abcdefghijklmnopqrstuvwxyzABCDEFGHIJKLMNOPQRSTUVWXYZ0123456789-_+=/\\:;,!?@#%&()[]{}<|~^'\"`$";

fn token(random: &mut Random) -> String {
    if random.below(4) > 0 {
        return COMMON[random.below(COMMON.len())].to_string();
    }
    let length = 1 + random.below(12);
    let letters = (0..length).map(|_| LETTERS[random.below(LETTERS.len())] as char);
    // a first `$` would name the server's own subjects
    letters.collect::<String>().replacen('$', "S", 1)
}

/// How many tokens: mostly few, sometimes up to the most.
fn depth(random: &mut Random) -> usize {
    if random.below(10) == 0 {
        return 1 + random.below(router::MAX_TOKENS);
    }
    1 + random.below(4)
}

pub fn subject(random: &mut Random) -> String {
    let tokens: Vec<String> = (0..depth(random)).map(|_| token(random)).collect();
    tokens.join(".")
}

pub fn pattern(random: &mut Random) -> String {
    let count = depth(random);
    let tokens = (0..count).map(|place| match random.below(6) {
        0 | 1 => "*".to_string(),
        2 if place + 1 == count => ">".to_string(),
        _ => token(random),
    });
    let tokens: Vec<String> = tokens.collect();
    tokens.join(".")
}
