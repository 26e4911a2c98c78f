//! Core's bit gather and scatter at 8, 16, 32 and 64 bits. Neither is ever refused.

use crate::calls::direct;
use crate::sealed::Sealed;

/// An unsigned integer that gather and scatter take: `u8`, `u16`, `u32` or `u64`.
///
/// Its hidden functions are the C functions themselves.
pub trait Bits: Sealed + Copy {
    #[doc(hidden)]
    fn gather(x: Self, mask: Self) -> Self;
    #[doc(hidden)]
    fn scatter(x: Self, mask: Self) -> Self;
}

macro_rules! bits {
    ($($uint:ident)+) => {$(
        impl Bits for $uint {
            direct!(gather(x, mask): $uint -> $uint);
            direct!(scatter(x, mask): $uint -> $uint);
        }
    )+};
}

bits!(u8 u16 u32 u64);

/// The bits of `x` at the ones of `mask`, from the lowest up, as bits 0, 1, 2 and so on; the rest is 0.
///
/// ```
/// use plyorchard::gather;
///
/// assert_eq!(gather(0b1011_0110u8, 0b1100_1010), 0b1001);
/// assert_eq!(gather(0xFF00u64, 0x0FF0), 0xF0);
/// assert_eq!(gather(u32::MAX, 0), 0);
/// ```
pub fn gather<T: Bits>(x: T, mask: T) -> T {
    T::gather(x, mask)
}

/// Bit `i` of `x` at the position of the `(i + 1)`-th one of `mask`, lowest first; other positions are 0.
///
/// Bits of `x` beyond the ones of `mask` are dropped.
///
/// ```
/// use plyorchard::scatter;
///
/// assert_eq!(scatter(0b1001u8, 0b1100_1010), 0b1000_0010);
/// assert_eq!(scatter(0x0Au64, 0x0FF0), 0x00A0);
/// assert_eq!(scatter(u32::MAX, 0x0000_8001), 0x0000_8001);
/// ```
pub fn scatter<T: Bits>(x: T, mask: T) -> T {
    T::scatter(x, mask)
}
