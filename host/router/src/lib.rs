//! The yard subject router for Rust programs: safe calls over the proved C library. It allocates nothing and needs no standard library.
//!
//! A program lends every area: slices of words and bytes whose sizes the functions of [`limits`] give. A type of this library holds a state together
//! with its areas, so that the two cannot be mixed up. No call asks anything of what it is lent: whatever stands in a state or an area, the call ends
//! with its result or a [`Refusal`], and touches nothing but the areas lent to it. So nothing here can be misused from safe Rust, and a state may be made by hand.
//!
//! The names are those of the original: `parse`, `matches`, `insert`, `build`, `store`, `match_into`, `resolve`, `single_home`.
//!
//! ```
//! use router::{List, Refusal, Resolution, Snapshot};
//!
//! fn main() -> Result<(), Refusal> {
//!     let (mut numbers, mut texts) = ([0; 3 * 10], [0; 1000]);
//!     let mut list = List::new(&mut numbers, &mut texts);
//!     list.insert(b"yard.north.points.>", 12)?;
//!     list.insert(b"yard.*.signal.*.aspect", 40)?;
//!
//!     let (mut nodes, mut targets) = ([0; 16 * 20], [0; 10]);
//!     let built = list.build(&mut nodes, &mut targets)?;
//!     let mut area = [0; 16 * 20 + 10];
//!     let snapshot = Snapshot::new(&built.table, &mut area)?;
//!
//!     let mut out = [0; 10];
//!     let verdict = router::resolve_single_home(&snapshot, b"yard.north.points.17.set", &mut out)?;
//!     assert_eq!(verdict.resolution, Resolution::Routed(12));
//!     Ok(())
//! }
//! ```
#![no_std]
#![deny(unsafe_code)]

mod answers;
pub mod binding;
pub mod bytes;
pub mod limits;
pub mod load;
#[allow(unsafe_code)]
pub mod raw;
pub mod refusal;
pub mod resolve_cache;
pub mod subject;
pub mod sublist;
pub mod whole_move;

pub use binding::{
    resolve_single_home, resolve_single_home_cached, single_home, Resolution, Verdict,
};
pub use limits::*;
pub use load::{draw, make_pattern, make_subject, Made};
pub use refusal::{Refusal, TextRefusal};
pub use resolve_cache::{Listed, ResolveCache};
pub use subject::{
    crossing, depth, has_tail_wildcard, matches, nth_token, parse, parse_literal, token_hash,
    tokens,
};
pub use sublist::{build, Built, List, Match, Snapshot, StandingMatch, Table};
pub use whole_move::{whole_move, WholeMove};
