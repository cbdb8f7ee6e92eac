//! Compares the router, through its C calls, with the original on the same inputs, and counts. The first difference is printed and ends the run with status 1.
//!
//! compare [--seconds N] [--seed N]
//! The exhaustive parts and those at the limits run whole, and beside them each random part makes a fixed number of turns. With --seconds the random parts
//! then go on by turns for N seconds more.
//!
//! compare --part NAME --turn SEED
//! One turn of a random part, as the report of a difference names it.
mod byte_limit;
mod cabinet;
mod calls;
mod copies;
mod crossing;
mod exhaustive;
mod first_tables;
mod hostile;
mod kinds;
mod limits;
mod load;
mod met;
mod moves;
mod options;
mod output;
mod parts;
mod pools;
mod seen;
mod short_lists;
mod sights;
mod slots;
mod states;
mod tables;
mod tally;
mod texts;
mod theirs;
mod words;

use compare::random::Random;
use options::Options;
use std::process::ExitCode;
use std::sync::atomic::{AtomicUsize, Ordering};
use std::time::{Duration, Instant};
use tally::Tally;

/// The parts that always run whole.
fn whole(tally: &mut Tally, random: &mut Random) {
    exhaustive::run(tally);
    short_lists::run(tally, random);
    limits::inserts(tally);
    limits::builds(tally, random);
    limits::runs(tally, random);
    limits::largest(tally);
    hostile::limits(tally, random);
    slots::run(tally, random);
    byte_limit::run(tally, random);
    calls::one_mark(tally, random);
    first_tables::run(tally, random);
    words::run(tally, random);
    crossing::run(tally);
    load::run(tally, random);
    moves::run(tally, random);
}

/// Those and the random parts, two at a time. Each has a seed of its own, so that what it does does not hang on when it is its turn.
fn all(random: &mut Random) -> Tally {
    let seeds: Vec<u64> = (0..=parts::COUNT).map(|_| random.seed()).collect();
    let next = AtomicUsize::new(0);
    let work = || {
        let mut tally = Tally::default();
        loop {
            let job = next.fetch_add(1, Ordering::Relaxed);
            let Some(&seed) = seeds.get(job) else {
                return tally;
            };
            let mut random = Random::new(seed);
            match job.checked_sub(1) {
                None => whole(&mut tally, &mut random),
                Some(part) => parts::fixed(part, &mut tally, &mut random),
            }
        }
    };
    std::thread::scope(|scope| {
        let beside = scope.spawn(work);
        let mut tally = work();
        tally.add(beside.join().expect("a part stopped short"));
        tally
    })
}

fn main() -> ExitCode {
    let began = Instant::now();
    let Some(options) = Options::read() else {
        eprintln!("compare [--seconds N] [--seed N]\ncompare --part NAME --turn SEED");
        return ExitCode::from(2);
    };
    if let Some((part, seed)) = options.turn {
        let mut tally = Tally::default();
        part.turn(&mut tally, seed);
        println!("{} comparisons, no difference", tally.total());
        return ExitCode::SUCCESS;
    }
    let mut random = Random::new(options.seed);
    let mut tally = all(&mut random);
    if let Some(seconds) = options.seconds {
        let end = Instant::now() + Duration::from_secs(seconds);
        parts::until(&mut tally, &mut random, end);
    }
    tally.close(began.elapsed())
}
