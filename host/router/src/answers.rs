//! From the numbers of the C calls to results.
use crate::raw::{Answer, CacheState, Resolved, SnapshotState};
use crate::Refusal;

/// A count or an index. Where a usize is shorter than the number, which no call on such a machine gives, it is the largest.
pub fn size(number: u64) -> usize {
    usize::try_from(number).unwrap_or(usize::MAX)
}

/// The values of an accepted call, or the refusal.
pub fn values(number: u64, values: [u64; 3]) -> Result<[u64; 3], Refusal> {
    match number {
        0 => Ok(values),
        _ => Err(Refusal::from_words(number, values)),
    }
}

/// The values of an answer, or the refusal.
pub fn accepted(answer: Answer) -> Result<[u64; 3], Refusal> {
    values(answer.number, [answer.first, answer.second, answer.third])
}

/// The values of a resolve, or the refusal.
pub fn resolved_values(resolved: &Resolved) -> Result<[u64; 3], Refusal> {
    let told = [resolved.first, resolved.second, resolved.third];
    values(resolved.number, told)
}

/// The first `length` places, or all if there are fewer.
pub fn front<T>(list: &[T], length: u64) -> &[T] {
    list.get(..size(length)).unwrap_or(list)
}

/// So many places from one on; none if they are not there.
pub fn part<T>(list: &[T], start: u64, length: u64) -> &[T] {
    let start = size(start);
    let end = start.saturating_add(size(length));
    list.get(start..end).unwrap_or(&[])
}

/// A snapshot's state from its four numbers.
pub fn snapshot_state(nodes: u64, targets: u64, generation: u64, next: u64) -> SnapshotState {
    SnapshotState {
        nodes: size(nodes),
        targets: size(targets),
        generation,
        next,
    }
}

/// The state of a cache after a resolve.
pub fn cache_after(resolved: &Resolved) -> CacheState {
    CacheState {
        capacity: size(resolved.capacity),
        used: size(resolved.used),
        generation: resolved.generation,
        tick: resolved.tick,
        walks: resolved.walks,
    }
}
