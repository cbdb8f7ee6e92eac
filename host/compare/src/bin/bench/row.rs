//! Times of calls that take turns.
use std::hint::black_box;
use std::time::{Duration, Instant};

/// About how long one timing takes, unless a single call takes longer: so short that other programs seldom come between.
const ROUND: Duration = Duration::from_millis(1);

/// The passes that each call makes before the first round.
const FIRST_PASSES: usize = 3;

/// The widths of the columns.
const NAME: usize = 48;
const TIME: usize = 10;

/// What stands beside the router in a table: the original, or, for a call that it does not have, the model written out in Rust.
pub const ORIGINAL: &[&str] = &["original", "known text"];
pub const MODEL: &[&str] = &["model"];

/// What stands beside a whole move: the original's verdicts on one subject after the other, and the router's own.
pub const ONE_BY_ONE: &[&str] = &["original", "one by one"];

/// A call on an input, timed. What it gives is only there to be computed.
pub type Call<'a, T> = &'a dyn Fn(&T) -> u64;

/// How long so many passes over all inputs take.
fn time<T>(passes: usize, inputs: &[T], call: Call<T>) -> Duration {
    let began = Instant::now();
    for _ in 0..passes {
        for input in inputs {
            black_box(call(black_box(input)));
        }
    }
    began.elapsed()
}

/// How the inputs of a row are timed: in parts of so many, so many passes over each part in a round.
struct Plan {
    part: usize,
    passes: usize,
}

impl Plan {
    /// A plan by the call whose pass over all inputs takes longest. Each call makes some passes to find out.
    fn new<T>(inputs: &[T], calls: &[Call<T>]) -> Plan {
        let pass = |call| (0..FIRST_PASSES).map(|_| time(1, inputs, call)).min();
        let slowest = calls.iter().filter_map(|&call| pass(call)).max();
        let slowest = slowest.map_or(1, |pass| pass.as_nanos().max(1));
        let passes = ROUND.as_nanos() / slowest;
        let part = inputs.len() as u128 * ROUND.as_nanos() / slowest;
        Plan {
            part: (part as usize).clamp(1, inputs.len()),
            passes: (passes as usize).max(1),
        }
    }
}

/// One line beside the original: the time of the first call, ours, and of each other with its ratio. How many passes each call has made in all.
pub fn row<T>(name: &str, rounds: usize, inputs: &[T], calls: &[Call<T>]) -> usize {
    row_beside(ORIGINAL, name, rounds, inputs, calls)
}

/// One line of a table. The calls take turns, and each counts by its fastest rounds: where a pass over the inputs takes long, by the fastest for each part of
/// them. How many passes each call has made in all.
pub fn row_beside<T>(
    beside: &[&str],
    name: &str,
    rounds: usize,
    inputs: &[T],
    calls: &[Call<T>],
) -> usize {
    let Plan { part, passes } = Plan::new(inputs, calls);
    let parts: Vec<&[T]> = inputs.chunks(part).collect();
    let mut fastest = vec![vec![Duration::MAX; parts.len()]; calls.len()];
    for _ in 0..rounds {
        for (fastest, call) in fastest.iter_mut().zip(calls) {
            for (fastest, inputs) in fastest.iter_mut().zip(&parts) {
                *fastest = time(passes, inputs, call).min(*fastest);
            }
        }
    }
    let sum = |parts: &Vec<Duration>| parts.iter().sum();
    let times = fastest
        .iter()
        .map(|parts| nanoseconds(sum(parts), passes * inputs.len()));
    print(beside, name, &times.collect::<Vec<f64>>());
    FIRST_PASSES + rounds * passes
}

/// The nanoseconds of one of so many calls.
pub fn nanoseconds(round: Duration, calls: usize) -> f64 {
    round.as_nanos() as f64 / calls as f64
}

/// So many lines, as people write it.
pub fn lines(count: usize) -> String {
    match (count / 1000, count % 1000) {
        (0, count) => format!("{count} lines"),
        (thousands, rest) => format!("{thousands},{rest:03} lines"),
    }
}

/// A time as people write it.
fn shown(nanoseconds: f64) -> String {
    if nanoseconds < 9_999.5 {
        format!("{nanoseconds:.0} ns")
    } else if nanoseconds < 9_999_950.0 {
        format!("{:.1} us", nanoseconds / 1e3)
    } else {
        format!("{:.1} ms", nanoseconds / 1e6)
    }
}

/// What stands in the columns, as the head of a Markdown table.
pub fn heading(calls: &str, beside: &[&str]) {
    print!("| {calls:NAME$} | {:>TIME$} |", "router");
    for column in beside {
        print!(" {column:>TIME$} | ratio |");
    }
    println!("\n|{}", "---|".repeat(2 + 2 * beside.len()));
}

/// The line of these times, ours first.
pub fn print(beside: &[&str], name: &str, times: &[f64]) {
    let ours = times[0];
    print!("| {name:NAME$} | {:>TIME$} |", shown(ours));
    for &theirs in &times[1..] {
        print!(" {:>TIME$} | {:5.2} |", shown(theirs), theirs / ours);
    }
    for _ in times.len()..=beside.len() {
        print!(" {:TIME$} |       |", "");
    }
    println!();
}
