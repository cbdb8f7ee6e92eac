//! The verdict on a subject: exactly one target, none, or several.
use crate::answers::{accepted, size, values};
use crate::raw;
use crate::{Refusal, ResolveCache, Snapshot};

/// What becomes of an order with some subject.
#[derive(Clone, Copy, Debug, PartialEq, Eq)]
pub enum Resolution {
    /// One line matches: the order goes to its target.
    Routed(u32),
    /// No line matches: the order goes nowhere.
    NoStream,
    /// Several lines match: the order goes nowhere, since it could go to any of them.
    Ambiguous { matched: usize },
}

impl Resolution {
    /// The one target, if there is one.
    pub const fn routed(self) -> Option<u32> {
        match self {
            Resolution::Routed(target) => Some(target),
            _ => None,
        }
    }

    /// Whether there is exactly one target.
    pub const fn is_routed(&self) -> bool {
        matches!(self, Resolution::Routed(_))
    }

    /// The verdict of a kind and a value, as the C calls give them; `Unknown` for any other kind or a target that is none.
    pub(crate) fn from_words([kind, value]: [u64; 2]) -> Result<Resolution, Refusal> {
        match (kind, u32::try_from(value)) {
            (0, _) => Ok(Resolution::NoStream),
            (1, Ok(target)) => Ok(Resolution::Routed(target)),
            (2, _) => Ok(Resolution::Ambiguous {
                matched: size(value),
            }),
            _ => Err(Refusal::Unknown {
                number: 0,
                values: [kind, value, 0],
            }),
        }
    }
}

/// The verdict on a subject by the standing table, with what its walk found.
#[derive(Clone, Copy, Debug, PartialEq, Eq)]
pub struct Verdict {
    pub resolution: Resolution,
    pub peak: usize,
    pub generation: u64,
}

/// The verdict on a list of targets.
pub fn single_home(list: &[u32]) -> Result<Resolution, Refusal> {
    accepted(raw::single_home(list))
        .and_then(|[kind, value, _]| Resolution::from_words([kind, value]))
}

/// The verdict on a subject by the standing table; the list is written to `out` as by a match. Or 1 to 9, 19, 21.
pub fn resolve_single_home(
    snapshot: &Snapshot<'_>,
    subject: &[u8],
    out: &mut [u32],
) -> Result<Verdict, Refusal> {
    let (standing, area) = snapshot.parts();
    let verdict = raw::resolve_single_home(standing, area, subject, out);
    let [kind, value, peak] = values(verdict.number, [verdict.kind, verdict.value, verdict.peak])?;
    Ok(Verdict {
        resolution: Resolution::from_words([kind, value])?,
        peak: size(peak),
        generation: verdict.generation,
    })
}

/// The verdict on a subject through a cache. Or 1 to 9, 17 to 19, 21.
pub fn resolve_single_home_cached(
    cache: &mut ResolveCache<'_>,
    snapshot: &Snapshot<'_>,
    subject: &[u8],
    out: &mut [u32],
) -> Result<Resolution, Refusal> {
    cache
        .resolve_verdict(snapshot, subject, out)
        .and_then(Resolution::from_words)
}

#[cfg(test)]
mod tests {
    use super::*;

    #[test]
    fn kinds() {
        assert_eq!(Resolution::from_words([0, 0]), Ok(Resolution::NoStream));
        assert_eq!(Resolution::from_words([1, 7]), Ok(Resolution::Routed(7)));
        let many = Resolution::Ambiguous { matched: 5 };
        assert_eq!(Resolution::from_words([2, 5]), Ok(many));
        assert!(Resolution::from_words([3, 0]).is_err());
        assert!(Resolution::from_words([1, 1 << 32]).is_err());
        assert_eq!(Resolution::Routed(7).routed(), Some(7));
        assert!(!many.is_routed());
    }
}
