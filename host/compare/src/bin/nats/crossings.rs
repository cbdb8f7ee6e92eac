//! Pairs of patterns: what the router says of them, and whether the server delivers so.
use crate::Deliveries;
use compare::original::MAX_TEXT;
use compare::random::Random;
use router::raw::{self, Answer};

/// Pairs that are drawn in a round.
const PAIRS: usize = 2_000;

/// Two patterns and what the router says of them, all by their places: the subject that it shows or none, or that it refuses a pattern.
pub struct Crossing {
    patterns: [usize; 2],
    said: Result<Option<usize>, Answer>,
}

/// A subject that two patterns both match, if the router shows one.
fn crossing(first: &str, second: &str) -> Result<Option<String>, Answer> {
    let mut out = [0; MAX_TEXT];
    let said = raw::crossing(first.as_bytes(), second.as_bytes(), &mut out);
    if !said.accepted() {
        return Err(said);
    }
    let subject = || String::from_utf8_lossy(&out[..said.second as usize]).into_owned();
    Ok((said.first == 1).then(subject))
}

/// Every pattern with itself, and pairs that are drawn. The subjects that the router shows join those that are there.
pub fn said(random: &mut Random, patterns: &[String], subjects: &mut Vec<String>) -> Vec<Crossing> {
    let count = patterns.len();
    let same = (0..count).map(|place| [place; 2]);
    let drawn = (0..PAIRS).map(|_| [random.below(count), random.below(count)]);
    let mut join = |subject| {
        subjects.push(subject);
        subjects.len() - 1
    };
    let said = same.chain(drawn).map(|pair| {
        let [first, second] = pair.map(|place| &patterns[place]);
        let said = crossing(first, second);
        Crossing {
            patterns: pair,
            said: said.map(|shown| shown.map(&mut join)),
        }
    });
    said.collect()
}

impl Crossing {
    pub fn is_shown(&self) -> bool {
        matches!(self.said, Ok(Some(_)))
    }

    /// Whether the subject shown reached both subscriptions, or no subject did where there is none.
    pub fn agrees(
        &self,
        patterns: &[String],
        subjects: &[String],
        deliveries: &Deliveries,
    ) -> bool {
        let [first, second] = self.patterns.map(|pattern| deliveries.to(pattern));
        let reached = |&subject: &usize| first[subject] > 0 && second[subject] > 0;
        let both: Vec<usize> = (0..subjects.len()).filter(reached).collect();
        let agrees = match self.said {
            Ok(Some(subject)) => both.contains(&subject),
            Ok(None) => both.is_empty(),
            Err(_) => false,
        };
        if !agrees {
            let [first, second] = self.patterns.map(|pattern| &patterns[pattern]);
            let said = self
                .said
                .map(|shown| shown.map(|subject| &subjects[subject]));
            let both: Vec<&String> = both.iter().map(|&subject| &subjects[subject]).collect();
            println!(
                "{first} and {second}: the router says {said:?}, NATS delivered to both {both:?}"
            );
        }
        agrees
    }
}
