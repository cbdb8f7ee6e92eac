//! Subjects of every length, which leave their mark in the slot that keeps them.
use super::hand::{ask, filled, show, Ground};
use super::met::Event;
use crate::cabinet::Cache;
use crate::sights::Sight;
use crate::tally::{Family, Tally};
use compare::model_cache::Way;
use compare::random::Random;
use router::limits::KEY_BYTES;
use std::ops::RangeInclusive;

/// Up to some bytes more than are kept.
pub const LENGTHS: RangeInclusive<usize> = 1..=260;

/// Each character a byte, or of one to four.
#[derive(Clone, Copy, Debug, PartialEq, Eq, PartialOrd, Ord)]
pub enum Script {
    Ascii,
    Utf8,
}

pub const SCRIPTS: [Script; 2] = [Script::Ascii, Script::Utf8];

/// How many subjects are drawn of each length.
const DRAWN: usize = 20;

/// Some characters are tried at each place of subjects of up to so many bytes: five words.
const MOST: usize = 40;
const TRIED: &[u8] = b"aZ07 ~!?";

const ASCII: &str = "abcdefghijklmnopqrstuvwxyzABCDEFGHIJKLMNOPQRSTUVWXYZ0123456789 !\"#$%&'()+,-/:;<=?@[\\]^_`{|}~";
const OTHERS: &str = "äöüßé€轨道🚂";

/// A subject of so many bytes.
pub fn subject(random: &mut Random, length: usize, script: Script) -> Vec<u8> {
    let choices: Vec<char> = match script {
        Script::Ascii => ASCII.chars().collect(),
        Script::Utf8 => OTHERS.chars().chain("abc".chars()).collect(),
    };
    let mut text = String::new();
    while text.len() < length {
        let left = length - text.len();
        let inside = left > 1 && !text.is_empty() && !text.ends_with('.');
        if inside && random.once_in(12) {
            text.push('.');
            continue;
        }
        let next = choices[random.below(choices.len())];
        if next.len_utf8() <= left {
            text.push(next);
        }
    }
    text.into_bytes()
}

/// A subject is resolved twice.
fn twice(
    tally: &mut Tally,
    random: &mut Random,
    ground: &Ground,
    cache: Cache,
    subject: &[u8],
    script: Script,
) {
    let mut cabinet = ground.cabinet(cache, "");
    for _ in 0..2 {
        let way = ask(tally, random, &mut cabinet, subject);
        let event = Event::Length {
            length: subject.len(),
            script,
            hit: way == Way::Hit,
        };
        tally.seen.slots.event(event);
    }
}

fn every_length(tally: &mut Tally, random: &mut Random, ground: &Ground) {
    for length in LENGTHS {
        for script in SCRIPTS {
            for draw in 0..DRAWN {
                let cache = filled(random, 1 + draw % 3, 1 + draw % 3, draw % 2);
                let subject = subject(random, length, script);
                twice(tally, random, ground, cache, &subject, script);
            }
        }
    }
    let part = "subjects of 1 to 260 bytes, each resolved twice";
    tally.report(Family::Calls, part);
}

fn every_place(tally: &mut Tally, random: &mut Random, ground: &Ground) {
    for length in 1..=MOST {
        for place in 0..length {
            for &character in TRIED {
                let mut subject = vec![b'x'; length];
                subject[place] = character;
                let cache = filled(random, 1, 1, 1);
                twice(tally, random, ground, cache, &subject, Script::Ascii);
            }
        }
    }
    let part = "subjects of up to 40 bytes with some character at any place, each resolved twice";
    tally.report(Family::Calls, part);
}

/// The middle one of three slots looks to a subject in each of the ways.
fn every_sight(tally: &mut Tally, random: &mut Random, ground: &Ground) {
    for length in LENGTHS.filter(|&length| length <= KEY_BYTES) {
        for sight in Sight::all() {
            let script = SCRIPTS[random.below(SCRIPTS.len())];
            let subject = subject(random, length, script);
            let mut cache = filled(random, 3, 3, 3);
            show(random, &mut cache.slots, 3, 1, sight, &subject);
            twice(tally, random, ground, cache, &subject, script);
        }
    }
    let part = "marks and keys in one of three slots, of subjects of 1 to 256 bytes";
    tally.report(Family::Calls, part);
}

pub fn run(tally: &mut Tally, random: &mut Random, ground: &Ground) {
    every_length(tally, random, ground);
    every_place(tally, random, ground);
    every_sight(tally, random, ground);
}
