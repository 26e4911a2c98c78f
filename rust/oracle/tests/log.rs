//! The decimal logarithm and the digit count through the C functions, compared with Rust's own.

use oracle::{powers_of_ten, values, Counter};
use plyorchard::{digit_count_answer, ilog10, Log10, Refusal};

/// The refusal's number, as the rules have it.
const NO_LOG: u8 = 2;

/// The words that a run tries: every one up to 16 bits, above that powers of two with their neighbours and random ones;
/// and powers of ten with their neighbours.
fn words(width: u32) -> impl Iterator<Item = u64> {
    values(width).chain(powers_of_ten(width))
}

macro_rules! run {
    ($($int:ident: $rust:ident;)+) => {$(
        #[test]
        fn $int() {
            let mut calls = Counter::new(concat!("decimal log, ", stringify!($int)));
            for v in words($int::BITS).map(|word| word as $int) {
                let rust = oracle::$rust(v);
                let ours = Log10::ilog10(v);
                let safe = ilog10(v).map_err(Refusal::number);
                calls.answer(v, safe, (ours.refusal, ours.value), rust.ok_or(NO_LOG));
            }
        }
    )+};
}

run! {
    u8: ilog10_u8;
    u16: ilog10_u16;
    u32: ilog10_u32;
    u64: ilog10_u64;
    i8: ilog10_i8;
    i16: ilog10_i16;
    i32: ilog10_i32;
    i64: ilog10_i64;
}

/// How many digits a number above 0 is printed with.
fn printed(v: u64) -> Option<u32> {
    (v > 0).then(|| v.to_string().len() as u32)
}

#[test]
fn digit_count() {
    let mut calls = Counter::new("digit count");
    for v in words(u64::BITS) {
        let rust = oracle::ilog10_u64(v).map(|log| log + 1);
        let ours = digit_count_answer(v);
        let safe = plyorchard::digit_count(v).map_err(Refusal::number);
        calls.answer(v, safe, (ours.refusal, ours.value), rust.ok_or(NO_LOG));
        assert_eq!(rust, printed(v), "{v}");
    }
}
