//! How a C call is made.

/// Safe functions over C calls: each is written with its parameters in Rust and the name of its C call, which takes a slice as its address and its length.
macro_rules! calls {
    // All parameters are taken: those of the function, those of the C call, and what is passed.
    (@ [$(#[$note:meta])* $seen:vis $name:ident $answer:ty, $call:ident]
        [$($lent:tt)*] [$($taken:tt)*] [$($passed:tt)*] $(,)?) => {
        $(#[$note])*
        #[allow(clippy::too_many_arguments)]
        $seen fn $name($($lent)*) -> $answer {
            extern "C" {
                fn $call($($taken)*) -> $answer;
            }
            // SAFETY: the call reads the slices that it is passed, writes those lent as `mut`, and touches nothing else. They are lent until it returns.
            unsafe { $call($($passed)*) }
        }
    };
    (@ $call:tt [$($lent:tt)*] [$($taken:tt)*] [$($passed:tt)*]
        $slice:ident: &mut [$word:ty], $($rest:tt)*) => {
        calls! { @ $call
            [$($lent)* $slice: &mut [$word],]
            [$($taken)* _: *mut $word, _: usize,]
            [$($passed)* $slice.as_mut_ptr(), $slice.len(),] $($rest)* }
    };
    (@ $call:tt [$($lent:tt)*] [$($taken:tt)*] [$($passed:tt)*]
        $slice:ident: &[$word:ty], $($rest:tt)*) => {
        calls! { @ $call
            [$($lent)* $slice: &[$word],]
            [$($taken)* _: *const $word, _: usize,]
            [$($passed)* $slice.as_ptr(), $slice.len(),] $($rest)* }
    };
    (@ $call:tt [$($lent:tt)*] [$($taken:tt)*] [$($passed:tt)*]
        $value:ident: $kind:ty, $($rest:tt)*) => {
        calls! { @ $call
            [$($lent)* $value: $kind,] [$($taken)* _: $kind,] [$($passed)* $value,] $($rest)* }
    };
    ($($(#[$note:meta])* $seen:vis fn $name:ident($($lent:tt)*) -> $answer:ty = $call:ident;)+) => {
        $(calls! { @ [$(#[$note])* $seen $name $answer, $call] [] [] [] $($lent)*, })+
    };
}
pub(super) use calls;
