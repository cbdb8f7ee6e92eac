//! Verdicts by their definitions, apart from the router.
use crate::model_cache::{self, list_of, Slots, Way};
use crate::model_snapshot;
use router::raw::{CacheState, Resolved, SnapshotState, Verdict};

/// `single_home` in numbers, kind and value: 0 NoStream, 1 Routed and the target, 2 Ambiguous and the length.
pub fn single_home(list: &[u32]) -> (u64, u64) {
    match list {
        [] => (0, 0),
        [target] => (1, u64::from(*target)),
        _ => (2, list.len() as u64),
    }
}

/// `resolve_single_home`: a match through the snapshot, and the verdict on its list.
pub fn resolve_single_home(
    snapshot: SnapshotState,
    area: &[u32],
    subject: &[u8],
    out: &mut [u32],
) -> Verdict {
    let found = model_snapshot::match_into(snapshot, area, subject, out);
    if !found.accepted() {
        return Verdict {
            number: found.number,
            kind: found.first,
            value: found.second,
            ..Verdict::default()
        };
    }
    let (kind, value) = single_home(&out[..found.first as usize]);
    Verdict {
        number: 0,
        kind,
        value,
        peak: found.second,
        generation: found.third,
    }
}

/// `resolve_single_home_cached`: a resolve, and the verdict on its list.
pub fn resolve_single_home_cached(
    cache: CacheState,
    slots: &mut Slots,
    snapshot: SnapshotState,
    area: &[u32],
    subject: &[u8],
    out: &mut [u32],
) -> (Resolved, Way) {
    let (mut resolved, way) = model_cache::resolve(cache, slots, snapshot, area, subject, out);
    if resolved.number == 0 {
        let (kind, value) = single_home(list_of(&resolved, &slots.kept, out));
        (resolved.first, resolved.second, resolved.third) = (kind, value, 0);
    }
    (resolved, way)
}
