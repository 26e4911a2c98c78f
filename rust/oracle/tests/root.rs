//! The roots through the C functions, compared with int_sqrt.rs at each width, unsigned and signed.

use oracle::{isqrt_i16, isqrt_i32, isqrt_i64, isqrt_i8};
use oracle::{isqrt_u16, isqrt_u32, isqrt_u64, isqrt_u8};
use oracle::{values, Counter};
use plyorchard::{isqrt, Refusal, Root};

/// The refusal of a negative number, as the rules have it.
const NEGATIVE_ROOT: u8 = 1;

/// 2^20 numbers of 32 bits: each one of up to 16 bits, and of every further length as many, at equal distances.
fn spread() -> impl Iterator<Item = u64> {
    let each = ((1 << 20) - (1 << 16)) / 16;
    let longer = (16..32).flat_map(move |k| (0..each).map(move |i| (1 << k) + (i << k) / each));
    (0..1 << 16).chain(longer)
}

/// The numbers whose squares are tried: every one below 2^16 at 32 bits; at 64 bits the spread ones and the 1000 largest.
fn roots(width: u32) -> Box<dyn Iterator<Item = u64>> {
    match width {
        0..=16 => Box::new(std::iter::empty()),
        32 => Box::new(0..1 << 16),
        _ => Box::new(spread().chain((1 << 32) - 1000..1 << 32)),
    }
}

/// Every word up to 16 bits; above, boundary values, 2^20 random ones, and each square with the numbers beside it.
fn inputs(width: u32) -> impl Iterator<Item = u64> {
    let squares = roots(width).map(|s| s * s);
    values(width).chain(squares.flat_map(|n| [n.wrapping_sub(1), n, n + 1]))
}

macro_rules! run {
    ($($uint:ident $of_uint:ident, $int:ident $of_int:ident;)+) => {$(
        #[test]
        fn $uint() {
            let mut calls = Counter::new(concat!("root, ", stringify!($uint)));
            for n in inputs($uint::BITS).map(|word| word as $uint) {
                calls.value(n, isqrt(n), $of_uint(n));
            }
        }

        #[test]
        fn $int() {
            let mut calls = Counter::new(concat!("root, ", stringify!($int)));
            for n in inputs($int::BITS).map(|word| word as $int) {
                let rust = $of_int(n);
                let ours = <$int as Root>::isqrt(n);
                let safe = isqrt(n).map_err(Refusal::number);
                calls.answer(n, safe, (ours.refusal, ours.value), rust.ok_or(NEGATIVE_ROOT));
            }
        }
    )+};
}

run! {
    u8 isqrt_u8, i8 isqrt_i8;
    u16 isqrt_u16, i16 isqrt_i16;
    u32 isqrt_u32, i32 isqrt_i32;
    u64 isqrt_u64, i64 isqrt_i64;
}

#[test]
fn spread_has_as_many_different_numbers_as_it_says() {
    let different: std::collections::BTreeSet<u64> = spread().collect();
    assert_eq!(different.len(), 1 << 20);
    assert!(different.iter().all(|s| *s < 1 << 32));
}
