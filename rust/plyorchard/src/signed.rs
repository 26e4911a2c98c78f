//! Core's signed forms at 8, 16, 32 and 64 bits: strict, wrapping, the Euclidean remainder and the next multiple.

use crate::calls::{direct, refusable, Answer};
use crate::sealed::Sealed;
use crate::Refusal;

/// A signed integer that the signed forms take: `i8`, `i16`, `i32` or `i64`.
///
/// Its hidden functions are the C functions themselves, for the tests.
pub trait Signed: Sealed + Copy {
    /// The unsigned integer of the same width.
    type Unsigned;

    #[doc(hidden)]
    fn strict_add(a: Self, b: Self) -> Answer<Self>;
    #[doc(hidden)]
    fn strict_sub(a: Self, b: Self) -> Answer<Self>;
    #[doc(hidden)]
    fn strict_neg(a: Self) -> Answer<Self>;
    #[doc(hidden)]
    fn strict_abs(a: Self) -> Answer<Self>;
    #[doc(hidden)]
    fn rem_euclid(a: Self, d: Self) -> Answer<Self>;
    #[doc(hidden)]
    fn next_multiple_of(a: Self, d: Self) -> Answer<Self>;
    #[doc(hidden)]
    fn wrapping_add(a: Self, b: Self) -> Self;
    #[doc(hidden)]
    fn wrapping_sub(a: Self, b: Self) -> Self;
    #[doc(hidden)]
    fn wrapping_neg(a: Self) -> Self;
    #[doc(hidden)]
    fn unsigned_abs(a: Self) -> Self::Unsigned;
}

macro_rules! signed {
    ($($int:ident, $unsigned:ident;)+) => {$(
        impl Signed for $int {
            type Unsigned = $unsigned;

            refusable!(strict_add(a, b): $int -> $int);
            refusable!(strict_sub(a, b): $int -> $int);
            refusable!(strict_neg(a): $int -> $int);
            refusable!(strict_abs(a): $int -> $int);
            refusable!(rem_euclid(a, d): $int -> $int);
            refusable!(next_multiple_of(a, d): $int -> $int);
            direct!(wrapping_add(a, b): $int -> $int);
            direct!(wrapping_sub(a, b): $int -> $int);
            direct!(wrapping_neg(a): $int -> $int);
            direct!(unsigned_abs(a): $int -> $unsigned);
        }
    )+};
}

signed! {
    i8, u8;
    i16, u16;
    i32, u32;
    i64, u64;
}

/// `a + b`. Refused with 4 where it does not fit.
///
/// ```
/// use plyorchard::{strict_add, Refusal};
///
/// assert_eq!(strict_add(100i8, 27), Ok(127));
/// assert_eq!(strict_add(100i8, 28), Err(Refusal::NoFit));
/// ```
pub fn strict_add<T: Signed>(a: T, b: T) -> Result<T, Refusal> {
    T::strict_add(a, b).result()
}

/// `a - b`. Refused with 4 where it does not fit.
///
/// ```
/// use plyorchard::{strict_sub, Refusal};
///
/// assert_eq!(strict_sub(-100i8, 28), Ok(-128));
/// assert_eq!(strict_sub(-100i8, 29), Err(Refusal::NoFit));
/// ```
pub fn strict_sub<T: Signed>(a: T, b: T) -> Result<T, Refusal> {
    T::strict_sub(a, b).result()
}

/// `-a`. Refused with 4 for the least number, the only one whose negative does not fit.
///
/// ```
/// use plyorchard::{strict_neg, Refusal};
///
/// assert_eq!(strict_neg(-127i8), Ok(127));
/// assert_eq!(strict_neg(i8::MIN), Err(Refusal::NoFit));
/// ```
pub fn strict_neg<T: Signed>(a: T) -> Result<T, Refusal> {
    T::strict_neg(a).result()
}

/// `|a|`. Refused with 4 for the least number, the only one whose absolute value does not fit.
///
/// ```
/// use plyorchard::{strict_abs, Refusal};
///
/// assert_eq!(strict_abs(-127i8), Ok(127));
/// assert_eq!(strict_abs(i8::MIN), Err(Refusal::NoFit));
/// ```
pub fn strict_abs<T: Signed>(a: T) -> Result<T, Refusal> {
    T::strict_abs(a).result()
}

/// The Euclidean remainder: the `r` with `0 <= r < |d|` for which `a - r` is a multiple of `d`.
///
/// Refused with 3 where `d` is 0, and with 4 for the least number by -1, where Rust's own panics.
///
/// ```
/// use plyorchard::{rem_euclid, Refusal};
///
/// assert_eq!(rem_euclid(-7i8, -4), Ok(1));
/// assert_eq!(rem_euclid(-1i8, -128), Ok(127));
/// assert_eq!(rem_euclid(5i8, 0), Err(Refusal::DivisorZero));
/// assert_eq!(rem_euclid(i8::MIN, -1), Err(Refusal::NoFit));
/// ```
pub fn rem_euclid<T: Signed>(a: T, d: T) -> Result<T, Refusal> {
    T::rem_euclid(a, d).result()
}

/// The next multiple: for `d > 0` the least multiple of `d` that is not below `a`, for `d < 0` the greatest that is not above `a`.
///
/// Refused with 3 where `d` is 0, and with 4 where that number does not fit.
///
/// ```
/// use plyorchard::{next_multiple_of, Refusal};
///
/// assert_eq!(next_multiple_of(23i8, -8), Ok(16));
/// assert_eq!(next_multiple_of(-23i8, 8), Ok(-16));
/// assert_eq!(next_multiple_of(i8::MIN, -1), Ok(i8::MIN));
/// assert_eq!(next_multiple_of(i8::MIN, -3), Err(Refusal::NoFit));
/// ```
pub fn next_multiple_of<T: Signed>(a: T, d: T) -> Result<T, Refusal> {
    T::next_multiple_of(a, d).result()
}

/// `a + b` modulo 2 to the width, as a number of the type.
///
/// ```
/// assert_eq!(plyorchard::wrapping_add(100i8, 28), -128);
/// ```
pub fn wrapping_add<T: Signed>(a: T, b: T) -> T {
    T::wrapping_add(a, b)
}

/// `a - b` modulo 2 to the width, as a number of the type.
///
/// ```
/// assert_eq!(plyorchard::wrapping_sub(-100i8, 29), 127);
/// ```
pub fn wrapping_sub<T: Signed>(a: T, b: T) -> T {
    T::wrapping_sub(a, b)
}

/// `-a` modulo 2 to the width, as a number of the type.
///
/// ```
/// assert_eq!(plyorchard::wrapping_neg(i8::MIN), i8::MIN);
/// ```
pub fn wrapping_neg<T: Signed>(a: T) -> T {
    T::wrapping_neg(a)
}

/// `|a|` as the unsigned number of the same width, which always fits.
///
/// ```
/// assert_eq!(plyorchard::unsigned_abs(-128i8), 128u8);
/// ```
pub fn unsigned_abs<T: Signed>(a: T) -> T::Unsigned {
    T::unsigned_abs(a)
}
