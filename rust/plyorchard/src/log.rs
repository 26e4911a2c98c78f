//! The decimal logarithm at the eight types, and the digit count.

use crate::calls::{refusable, Answer};
use crate::sealed::Sealed;
use crate::Refusal;

/// An integer that has a decimal logarithm: `u8`, `u16`, `u32`, `u64`, `i8`, `i16`, `i32` or `i64`.
///
/// Its hidden function is the C functions themselves, for the tests.
pub trait Log10: Sealed + Copy {
    #[doc(hidden)]
    fn ilog10(v: Self) -> Answer<u32>;
}

macro_rules! log10 {
    ($($int:ident)+) => {$(
        impl Log10 for $int {
            refusable!(ilog10(v): $int -> u32);
        }
    )+};
}

log10!(u8 u16 u32 u64 i8 i16 i32 i64);

/// The decimal logarithm: the `k` for which 10 to the `k` is not above `v`, and 10 to the `k + 1` is.
///
/// Refused with 2 where `v` is not above 0, where Rust's own panics.
///
/// ```
/// use plyorchard::{ilog10, Refusal};
///
/// assert_eq!(ilog10(99_999u32), Ok(4));
/// assert_eq!(ilog10(100_000u32), Ok(5));
/// assert_eq!(ilog10(u64::MAX), Ok(19));
/// assert_eq!(ilog10(0u8), Err(Refusal::NoLog));
/// assert_eq!(ilog10(-5i8), Err(Refusal::NoLog));
/// ```
pub fn ilog10<T: Log10>(v: T) -> Result<u32, Refusal> {
    T::ilog10(v).result()
}

/// How many decimal digits `v` has: its decimal logarithm plus one.
///
/// Refused with 2 where `v` is 0, as the logarithm is.
///
/// ```
/// use plyorchard::{digit_count, Refusal};
///
/// assert_eq!(digit_count(9), Ok(1));
/// assert_eq!(digit_count(10), Ok(2));
/// assert_eq!(digit_count(0), Err(Refusal::NoLog));
/// ```
pub fn digit_count(v: u64) -> Result<u32, Refusal> {
    digit_count_answer(v).result()
}

/// The C functions of the digit count themselves, for the tests.
#[doc(hidden)]
pub fn digit_count_answer(v: u64) -> Answer<u32> {
    extern "C" {
        fn ply_digit_count_refusal(v: u64) -> u8;
        fn ply_digit_count_value(v: u64) -> u32;
    }
    // SAFETY: the archive has both functions with these types, and they are proved to end and to be safe on every input.
    unsafe {
        Answer {
            refusal: ply_digit_count_refusal(v),
            value: ply_digit_count_value(v),
        }
    }
}
