//! What the C calls answer and take, in 64-bit numbers.

/// What a call answers: 0, or the number of a refusal, and then the values that belong to it, 0 where there is none.
#[repr(C)]
#[derive(Clone, Copy, Debug, Default, PartialEq, Eq)]
pub struct Answer {
    pub number: u64,
    pub first: u64,
    pub second: u64,
    pub third: u64,
}

impl Answer {
    pub const fn accepted(&self) -> bool {
        self.number == 0
    }
}

#[repr(C)]
#[derive(Clone, Copy, Debug, Default, PartialEq, Eq)]
pub struct SnapshotState {
    pub nodes: usize,
    pub targets: usize,
    pub generation: u64,
    pub next: u64,
}

/// A cache's state: its slots, how many are used, the generation that they belong to, the last stamp, and the walks so far.
#[repr(C)]
#[derive(Clone, Copy, Debug, Default, PartialEq, Eq)]
pub struct CacheState {
    pub capacity: usize,
    pub used: usize,
    pub generation: u64,
    pub tick: u64,
    pub walks: u64,
}

/// 0 and the state of a new snapshot, or 19 or 20 and zeros.
#[repr(C)]
#[derive(Clone, Copy, Debug, Default, PartialEq, Eq)]
pub struct MadeSnapshot {
    pub number: u64,
    pub nodes: u64,
    pub targets: u64,
    pub generation: u64,
    pub next: u64,
}

/// 0 and the generation stamped, or 19 or 20 and 0; then the snapshot's state afterwards, which a refusal leaves as it was.
#[repr(C)]
#[derive(Clone, Copy, Debug, Default, PartialEq, Eq)]
pub struct Stored {
    pub number: u64,
    pub stamped: u64,
    pub nodes: u64,
    pub targets: u64,
    pub generation: u64,
    pub next: u64,
}

/// 0 and the state of a new cache, or 17 and zeros.
#[repr(C)]
#[derive(Clone, Copy, Debug, Default, PartialEq, Eq)]
pub struct MadeCache {
    pub number: u64,
    pub capacity: u64,
    pub used: u64,
    pub generation: u64,
    pub tick: u64,
    pub walks: u64,
}

/// What a resolve answers, as an [`Answer`] has it; then the cache's state afterwards.
#[repr(C)]
#[derive(Clone, Copy, Debug, Default, PartialEq, Eq)]
pub struct Resolved {
    pub number: u64,
    pub first: u64,
    pub second: u64,
    pub third: u64,
    pub capacity: u64,
    pub used: u64,
    pub generation: u64,
    pub tick: u64,
    pub walks: u64,
}

/// 0, the verdict, the peak and the generation; or a refusal, whose values stand in `kind` and `value`.
/// Of a verdict, kind 0 is NoStream (value 0), 1 is Routed (value: the target), 2 is Ambiguous (value: how many matched).
#[repr(C)]
#[derive(Clone, Copy, Debug, Default, PartialEq, Eq)]
pub struct Verdict {
    pub number: u64,
    pub kind: u64,
    pub value: u64,
    pub peak: u64,
    pub generation: u64,
}

/// 0 and a made text's length, or a refusal with its value; then the new state, which a refusal leaves as it was lent.
#[repr(C)]
#[derive(Clone, Copy, Debug, Default, PartialEq, Eq)]
pub struct MadeText {
    pub number: u64,
    pub value: u64,
    pub state: u64,
}

/// Of a whole move that is routed, 0, 0 and the number of targets; of one that stops, 0, 1, the place of the first subject that is not Routed, and the
/// kind and value of its verdict, as a [`Verdict`] has them. Or a refusal and its values; of 1 to 9, the subject's place stands before them.
#[repr(C)]
#[derive(Clone, Copy, Debug, Default, PartialEq, Eq)]
pub struct Move {
    pub number: u64,
    pub first: u64,
    pub second: u64,
    pub third: u64,
    pub fourth: u64,
}

/// So many 64-bit numbers.
const fn numbers(count: usize) -> usize {
    count * size_of::<u64>()
}

// The structs are those of the C calls, which have 64-bit numbers and nothing between them.
const _: () = {
    assert!(size_of::<usize>() == size_of::<u64>());
    assert!(size_of::<Answer>() == numbers(4));
    assert!(size_of::<SnapshotState>() == numbers(4));
    assert!(size_of::<CacheState>() == numbers(5));
    assert!(size_of::<MadeSnapshot>() == numbers(5));
    assert!(size_of::<Stored>() == numbers(6));
    assert!(size_of::<MadeCache>() == numbers(6));
    assert!(size_of::<Resolved>() == numbers(9));
    assert!(size_of::<Verdict>() == numbers(5));
    assert!(size_of::<MadeText>() == numbers(3));
    assert!(size_of::<Move>() == numbers(5));
};
