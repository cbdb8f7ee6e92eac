//! The original's snapshot, cache and verdict on bytes. A refusal of the subject is the answer, and the original is then not called further.
use crate::model_move::Due;
use crate::model_snapshot::answer;
use crate::original::subject;
use oracle::binding::{self, Resolution};
use oracle::resolve_cache::ResolveCache;
use oracle::sublist::SublistSnapshot;
use router::raw::Answer;

fn told(result: Result<Answer, Answer>) -> Answer {
    result.unwrap_or_else(|refusal| refusal)
}

/// A verdict in numbers: kind and value.
pub fn verdict(resolution: Resolution<u32>) -> Answer {
    match resolution {
        Resolution::NoStream => answer(0, &[0, 0]),
        Resolution::Routed(target) => answer(0, &[1, target as usize]),
        Resolution::Ambiguous { matched } => answer(0, &[2, matched]),
    }
}

/// `SublistSnapshot::match_into`: the list is put into `out`. Its length and the generation, with 0 between them, for the original reports no peak.
pub fn match_into(snapshot: &SublistSnapshot<u32>, bytes: &[u8], out: &mut Vec<u32>) -> Answer {
    told(subject(bytes).map(|subject| {
        let generation = snapshot.match_into(&subject, out);
        Answer {
            third: generation,
            ..answer(0, &[out.len()])
        }
    }))
}

/// `ResolveCache::resolve_with`: the list is put into `out`. Its length.
pub fn resolve(
    cache: &mut ResolveCache<u32>,
    snapshot: &SublistSnapshot<u32>,
    bytes: &[u8],
    out: &mut Vec<u32>,
) -> Answer {
    told(subject(bytes).map(|subject| {
        cache.resolve_with(snapshot, &subject, |list| {
            out.clear();
            out.extend_from_slice(list);
        });
        answer(0, &[out.len()])
    }))
}

/// The same without a copy: the length alone.
pub fn resolve_length(
    cache: &mut ResolveCache<u32>,
    snapshot: &SublistSnapshot<u32>,
    bytes: &[u8],
) -> Answer {
    told(subject(bytes).map(|subject| {
        let length = cache.resolve_with(snapshot, &subject, <[u32]>::len);
        answer(0, &[length])
    }))
}

/// `resolve_single_home`: kind and value.
pub fn resolve_single_home(snapshot: &SublistSnapshot<u32>, bytes: &[u8]) -> Answer {
    told(subject(bytes).map(|subject| verdict(binding::resolve_single_home(snapshot, &subject))))
}

/// `resolve_single_home_cached`: kind and value.
pub fn resolve_single_home_cached(
    cache: &mut ResolveCache<u32>,
    snapshot: &SublistSnapshot<u32>,
    bytes: &[u8],
) -> Answer {
    told(subject(bytes).map(|subject| {
        verdict(binding::resolve_single_home_cached(
            cache, snapshot, &subject,
        ))
    }))
}

/// `resolve_single_home` of one subject after the other: all targets, or the first subject that is not Routed. The original has no whole move; a subject that it
/// refuses ends this one before any verdict.
pub fn whole_move(snapshot: &SublistSnapshot<u32>, subjects: &[&[u8]]) -> Due {
    let verdict = |bytes: &&[u8]| resolve_single_home(snapshot, bytes);
    let verdicts: Vec<Answer> = subjects.iter().map(verdict).collect();
    if let Some(place) = verdicts.iter().position(|told| !told.accepted()) {
        let refusal = verdicts[place];
        return Due::Refused { place, refusal };
    }
    match verdicts.iter().position(|told| told.first != 1) {
        None => Due::Routed(verdicts.iter().map(|told| told.second as u32).collect()),
        Some(place) => Due::Stopped {
            place,
            kind: verdicts[place].first,
            value: verdicts[place].second,
        },
    }
}
