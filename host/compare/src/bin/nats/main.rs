//! Checks the router against a running NATS server, with random patterns and subjects that both grammars accept. `matches`: a message reaches a subscription
//! exactly if the router says that its pattern matches the subject. `crossing`: a subject that the router shows for two patterns reaches both subscriptions, and
//! where it says that there is none, no subject reaches both.
//!
//! nats ADDRESS [--rounds N] [--seed N]
//! Each round is one connection with PATTERNS subscriptions and SUBJECTS messages, and one more for every subject shown; every pair of a pattern and a subject is
//! compared. Any difference is printed and ends the run with status 1.
mod client;
mod crossings;
mod texts;

use client::{odd, Client};
use compare::random::Random;
use std::io;
use std::process::ExitCode;

const PATTERNS: usize = 300;
const SUBJECTS: usize = 300;
const ROUNDS: u64 = 100;

/// How often each message reached each subscription, by places among patterns and subjects.
struct Deliveries {
    subjects: usize,
    times: Vec<u32>,
}

impl Deliveries {
    /// One connection: subscriptions to all patterns, then a message on each subject.
    fn new(address: &str, patterns: &[String], subjects: &[String]) -> io::Result<Deliveries> {
        let mut client = Client::connect(address)?;
        client.subscribe(patterns)?;
        client.delivered()?;
        client.publish(subjects)?;
        let mut times = vec![0; patterns.len() * subjects.len()];
        for (subscription, message) in client.delivered()? {
            let place = subscription * subjects.len() + message;
            let times = times.get_mut(place);
            *times.ok_or_else(|| odd("an unknown delivery"))? += 1;
        }
        Ok(Deliveries {
            subjects: subjects.len(),
            times,
        })
    }

    /// How often each message reached the subscription to a pattern.
    fn to(&self, pattern: usize) -> &[u32] {
        &self.times[pattern * self.subjects..][..self.subjects]
    }
}

#[derive(Default)]
struct Counts {
    pairs: u64,
    delivered: u64,
    shown: u64,
    apart: u64,
}

/// Every pair of a pattern and a subject: whether the router says what was delivered.
fn matches_agree(patterns: &[String], subjects: &[String], deliveries: &Deliveries) -> bool {
    let mut agreed = true;
    for (place, pattern) in patterns.iter().enumerate() {
        for (subject, &count) in subjects.iter().zip(deliveries.to(place)) {
            let ours = router::matches(pattern.as_bytes(), subject.as_bytes());
            if ours != Ok(count == 1) || count > 1 {
                println!("{pattern} and {subject}: the router says {ours:?}, NATS delivered {count} times");
                agreed = false;
            }
        }
    }
    agreed
}

/// One round: every pair of a pattern and a subject is compared, and so are pairs of patterns.
fn round(address: &str, random: &mut Random, counts: &mut Counts) -> io::Result<bool> {
    let patterns: Vec<String> = (0..PATTERNS).map(|_| texts::pattern(random)).collect();
    let mut subjects: Vec<String> = (0..SUBJECTS).map(|_| texts::subject(random)).collect();
    let crossings = crossings::said(random, &patterns, &mut subjects);
    let deliveries = Deliveries::new(address, &patterns, &subjects)?;
    let mut agreed = matches_agree(&patterns, &subjects, &deliveries);
    for crossing in &crossings {
        agreed &= crossing.agrees(&patterns, &subjects, &deliveries);
    }
    let shown = crossings.iter().filter(|crossing| crossing.is_shown());
    let shown = shown.count() as u64;
    counts.pairs += deliveries.times.len() as u64;
    counts.delivered += u64::from(deliveries.times.iter().sum::<u32>());
    counts.shown += shown;
    counts.apart += crossings.len() as u64 - shown;
    Ok(agreed)
}

/// The number behind an option.
fn option(words: &[String], name: &str, otherwise: u64) -> Result<u64, String> {
    let Some(place) = words.iter().position(|word| word == name) else {
        return Ok(otherwise);
    };
    let number = words.get(place + 1).and_then(|word| word.parse().ok());
    number.ok_or_else(|| format!("{name} takes a number"))
}

fn run() -> Result<bool, String> {
    let words: Vec<String> = std::env::args().skip(1).collect();
    let address = words
        .first()
        .ok_or("nats ADDRESS [--rounds N] [--seed N]")?;
    let rounds = option(&words, "--rounds", ROUNDS)?;
    let mut random = Random::new(option(&words, "--seed", 1)?);
    let mut counts = Counts::default();
    for _ in 0..rounds {
        let agreed = round(address, &mut random, &mut counts).map_err(|e| e.to_string())?;
        if !agreed {
            return Ok(false);
        }
    }
    println!(
        "{rounds} connections, {} pairs of a pattern and a subject compared, {} messages delivered, no difference",
        counts.pairs, counts.delivered
    );
    println!(
        "{} pairs of patterns: for {} a subject is shown, which reached both; for {} none, and no subject reached both",
        counts.shown + counts.apart,
        counts.shown,
        counts.apart
    );
    Ok(counts.delivered > 0 && counts.shown > 0 && counts.apart > 0)
}

fn main() -> ExitCode {
    match run() {
        Ok(true) => ExitCode::SUCCESS,
        Ok(false) => ExitCode::FAILURE,
        Err(why) => {
            eprintln!("{why}");
            ExitCode::from(2)
        }
    }
}
