//! Core's int_sqrt.rs, int_log10.rs and int_bits.rs, compiled unchanged, and a public function for each type in use.

pub use core::num::NonZero;

#[rustfmt::skip]
#[allow(dead_code, clippy::all)]
#[path = "core/int_bits.rs"]
mod int_bits;
#[rustfmt::skip]
#[allow(dead_code, clippy::all)]
#[path = "core/int_log10.rs"]
mod int_log10;
#[rustfmt::skip]
#[allow(dead_code, clippy::all)]
#[path = "core/int_sqrt.rs"]
mod int_sqrt;

macro_rules! unsigned {
    ($($uint:ident: $isqrt:ident $ilog10:ident $extract:ident $deposit:ident;)+) => {$(
        /// The root of n, by `int_sqrt.rs`.
        #[inline]
        pub fn $isqrt(n: $uint) -> $uint {
            int_sqrt::$uint(n)
        }

        /// The decimal log of v, by `int_log10.rs`; of 0 there is none.
        #[inline]
        pub fn $ilog10(v: $uint) -> Option<u32> {
            NonZero::new(v).map(int_log10::$uint)
        }

        /// x gathered under the mask, by `int_bits.rs`.
        #[inline]
        pub fn $extract(x: $uint, mask: $uint) -> $uint {
            int_bits::$uint::extract_impl(x, mask)
        }

        /// x scattered under the mask, by `int_bits.rs`.
        #[inline]
        pub fn $deposit(x: $uint, mask: $uint) -> $uint {
            int_bits::$uint::deposit_impl(x, mask)
        }
    )+};
}

unsigned! {
    u8: isqrt_u8 ilog10_u8 extract_u8 deposit_u8;
    u16: isqrt_u16 ilog10_u16 extract_u16 deposit_u16;
    u32: isqrt_u32 ilog10_u32 extract_u32 deposit_u32;
    u64: isqrt_u64 ilog10_u64 extract_u64 deposit_u64;
}

macro_rules! signed {
    ($($int:ident, $uint:ident: $isqrt:ident $ilog10:ident;)+) => {$(
        /// The root of n, by `int_sqrt.rs` as `checked_isqrt` calls it; of a negative number there is none.
        #[inline]
        pub fn $isqrt(n: $int) -> Option<$int> {
            (n >= 0).then(|| int_sqrt::$uint(n.cast_unsigned()).cast_signed())
        }

        /// The decimal log of v, by `int_log10.rs`; of a number that is not above 0 there is none.
        #[inline]
        pub fn $ilog10(v: $int) -> Option<u32> {
            int_log10::$int(v)
        }
    )+};
}

signed! {
    i8, u8: isqrt_i8 ilog10_i8;
    i16, u16: isqrt_i16 ilog10_i16;
    i32, u32: isqrt_i32 ilog10_i32;
    i64, u64: isqrt_i64 ilog10_i64;
}
