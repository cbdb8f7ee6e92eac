//! The calls of the C library (`crates/router_c_c`), each behind a safe function, with answers as it gives them: numbers.
//!
//! Every call takes any numbers, words and bytes: it ends with its result or a refusal and never reads or writes outside the slices that it is lent.
//! So the states below may be made by hand, with any numbers in them; a state that does not fit its area is refused or gives a defined answer.
//! Programs use the rest of this library, which keeps a state with its area and names the answers; this layer is for comparisons and for other bindings.
mod cabinet;
mod calls;
mod lists;
mod load;
mod tables;
mod texts;
mod words;

pub use cabinet::*;
pub use lists::*;
pub use load::*;
pub use tables::*;
pub use texts::*;
pub use words::*;
