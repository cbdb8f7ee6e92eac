//! Events that must come up, each at least once, and how often each did.
use std::collections::BTreeMap;
use std::fmt::Debug;

pub struct Met<E>(BTreeMap<E, u64>);

impl<E> Default for Met<E> {
    fn default() -> Met<E> {
        Met(BTreeMap::new())
    }
}

impl<E: Copy + Debug + Ord> Met<E> {
    pub fn event(&mut self, event: E) {
        *self.0.entry(event).or_default() += 1;
    }

    /// What others met, too.
    pub fn add(&mut self, other: Met<E>) {
        for (event, count) in other.0 {
            *self.0.entry(event).or_default() += count;
        }
    }

    /// Prints how often the rarest of some events of a call came up. Those that never did, though they must.
    pub fn report(&self, call: &str, about: &str, events: Vec<E>) -> Vec<String> {
        let count = |event: &E| self.0.get(event).copied().unwrap_or(0);
        let rarest = events.iter().map(count).min().unwrap_or(0);
        println!(
            "{rarest:>12} {call}, the rarest of {} {about}",
            events.len()
        );
        let never = events.iter().filter(|event| count(event) == 0);
        never
            .map(|event| format!("{call} with {event:?}"))
            .collect()
    }
}
