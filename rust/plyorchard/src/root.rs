//! Core's integer square root at 8, 16, 32 and 64 bits, unsigned and signed.

use crate::calls::{direct, refusable, Answer};
use crate::sealed::Sealed;
use crate::Refusal;

/// An integer that the root takes: `u8` to `u64`, `i8` to `i64`.
///
/// Its hidden functions are the C functions themselves, for the tests.
pub trait Root: Sealed + Copy {
    /// What [`isqrt`] gives: the root of an unsigned number, and of a signed one the root or its refusal.
    type Output;

    #[doc(hidden)]
    type Numbers;
    #[doc(hidden)]
    fn isqrt(n: Self) -> Self::Numbers;
    #[doc(hidden)]
    fn read(numbers: Self::Numbers) -> Self::Output;
}

macro_rules! unsigned {
    ($($int:ident)+) => {$(
        impl Root for $int {
            type Output = $int;
            type Numbers = $int;

            direct!(isqrt(n): $int -> $int);

            #[inline]
            fn read(root: $int) -> $int {
                root
            }
        }
    )+};
}

macro_rules! signed {
    ($($int:ident)+) => {$(
        impl Root for $int {
            type Output = Result<$int, Refusal>;
            type Numbers = Answer<$int>;

            refusable!(isqrt(n): $int -> $int);

            #[inline]
            fn read(numbers: Answer<$int>) -> Result<$int, Refusal> {
                numbers.result()
            }
        }
    )+};
}

unsigned!(u8 u16 u32 u64);
signed!(i8 i16 i32 i64);

/// The integer square root: the `s` with `s * s <= n` and `n < (s + 1) * (s + 1)`.
///
/// Of an unsigned number it is never refused. A signed one is refused with 1 below 0, where Rust's own panics.
///
/// ```
/// use plyorchard::{isqrt, Refusal};
///
/// assert_eq!(isqrt(3u8), 1);
/// assert_eq!(isqrt(65_280u16), 255);
/// assert_eq!(isqrt(u64::MAX), 4_294_967_295);
/// assert_eq!(isqrt(127i8), Ok(11));
/// assert_eq!(isqrt(-1i8), Err(Refusal::NegativeRoot));
/// ```
pub fn isqrt<T: Root>(n: T) -> T::Output {
    T::read(T::isqrt(n))
}
