//! A resolve on bytes, lowest byte of a number first, beside the same resolve on numbers. Some bytes behind the last whole number of an area belong to none.
use crate::cabinet::Side;
use crate::tables::{bytes_of, MOST_BYTES};
use compare::model_cache::{resolved, Slots};
use compare::model_snapshot::answer;
use compare::random::Random;
use router::raw::{self, CacheState, Resolved};

/// How many bytes stand behind the last whole number.
#[derive(Clone, Copy, Debug, Default)]
pub struct Odd {
    pub stamps: usize,
    pub kept: usize,
    pub area: usize,
    pub out: usize,
}

impl Odd {
    pub fn any(random: &mut Random) -> Odd {
        Odd {
            stamps: random.below(8),
            kept: random.below(4),
            area: random.below(4),
            out: random.below(4),
        }
    }
}

/// The areas that a call writes.
#[derive(Clone, Debug, PartialEq, Eq)]
pub struct Copies {
    stamps: Vec<u8>,
    keys: Vec<u8>,
    kept: Vec<u8>,
    out: Vec<u8>,
}

fn with_odd(mut bytes: Vec<u8>, odd: usize) -> Vec<u8> {
    bytes.extend_from_slice(&b"the end"[..odd]);
    bytes
}

impl Copies {
    fn new(slots: &Slots, out: &[u32], odd: Odd) -> Copies {
        let stamps = slots.stamps.iter().flat_map(|stamp| stamp.to_le_bytes());
        Copies {
            stamps: with_odd(stamps.collect(), odd.stamps),
            keys: slots.keys.clone(),
            kept: with_odd(bytes_of(&slots.kept), odd.kept),
            out: with_odd(bytes_of(out), odd.out),
        }
    }
}

/// A resolve on bytes that was made.
pub struct ByteCall {
    odd: Odd,
    lent: CacheState,
    /// The areas before the call, if they are together more bytes than it takes.
    refused: Option<Copies>,
    pub told: Resolved,
    pub left: Copies,
}

impl ByteCall {
    /// Makes the call on copies of a cache's areas, of the snapshot's and of the output.
    pub fn make(side: &Side, on: usize, subject: &[u8], out: &[u32], odd: Odd) -> ByteCall {
        let cache = &side.caches[on];
        let area = with_odd(bytes_of(&side.area), odd.area);
        let mut left = Copies::new(&cache.slots, out, odd);
        let bytes = left.stamps.len() + left.kept.len() + area.len() + left.out.len();
        let refused = (bytes > MOST_BYTES).then(|| left.clone());
        let told = raw::resolve_bytes(
            cache.state,
            &mut left.stamps,
            &mut left.keys,
            &mut left.kept,
            side.snapshot,
            &area,
            subject,
            &mut left.out,
        );
        ByteCall {
            odd,
            lent: cache.state,
            refused,
            told,
            left,
        }
    }

    /// What the call should have answered and left, from what the same call on numbers answered and left: that, or 99 and nothing changed.
    pub fn due(&self, told: Resolved, slots: &Slots, out: &[u32]) -> (Resolved, Copies) {
        match &self.refused {
            Some(before) => (resolved(answer(99, &[]), self.lent), before.clone()),
            None => (told, Copies::new(slots, out, self.odd)),
        }
    }
}
