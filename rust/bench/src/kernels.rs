//! The rows of the kernels: each C function, and the Rust as given that gives the same number.

use crate::row::{operands, Row};
use oracle::{masks, Given};

/// Where second operands come from; then each C function with its type, and the Rust beside it.
macro_rules! rows {
    ($seconds:ident; $($ours:ident($($operand:ident: $int:ident),+) -> $value:ident = $rust:expr;)+) => {
        vec![$({
            extern "C" {
                fn $ours($($operand: $int),+) -> $value;
            }
            #[inline(never)]
            extern "C" fn rust($($operand: $int),+) -> $value {
                $rust
            }
            let functions: [unsafe extern "C" fn($($int),+) -> $value; 2] = [$ours, rust];
            Row::of(stringify!($ours), functions, $seconds)
        }),+]
    };
}

/// Of a form that can be refused, the `_value` function stands beside Rust's checked form, with 0 for `None`.
pub fn rows() -> Vec<Row> {
    let kernels = [roots_and_logs(), bits(), signed_forms()];
    kernels.into_iter().flatten().collect()
}

fn roots_and_logs() -> Vec<Row> {
    rows! {
        operands;
        ply_isqrt_u8(n: u8) -> u8 = oracle::isqrt_u8(n);
        ply_isqrt_u16(n: u16) -> u16 = oracle::isqrt_u16(n);
        ply_isqrt_u32(n: u32) -> u32 = oracle::isqrt_u32(n);
        ply_isqrt_u64(n: u64) -> u64 = oracle::isqrt_u64(n);
        ply_isqrt_i64_value(n: i64) -> i64 = oracle::isqrt_i64(n).unwrap_or(0);
        ply_ilog10_u8_value(v: u8) -> u32 = oracle::ilog10_u8(v).unwrap_or(0);
        ply_ilog10_u16_value(v: u16) -> u32 = oracle::ilog10_u16(v).unwrap_or(0);
        ply_ilog10_u32_value(v: u32) -> u32 = oracle::ilog10_u32(v).unwrap_or(0);
        ply_ilog10_u64_value(v: u64) -> u32 = oracle::ilog10_u64(v).unwrap_or(0);
        ply_ilog10_i64_value(v: i64) -> u32 = oracle::ilog10_i64(v).unwrap_or(0);
        ply_digit_count_value(v: u64) -> u32 = oracle::ilog10_u64(v).map_or(0, |log| log + 1);
    }
}

fn bits() -> Vec<Row> {
    rows! {
        masks;
        ply_gather_u8(x: u8, mask: u8) -> u8 = oracle::extract_u8(x, mask);
        ply_gather_u16(x: u16, mask: u16) -> u16 = oracle::extract_u16(x, mask);
        ply_gather_u32(x: u32, mask: u32) -> u32 = oracle::extract_u32(x, mask);
        ply_gather_u64(x: u64, mask: u64) -> u64 = oracle::extract_u64(x, mask);
        ply_scatter_u8(x: u8, mask: u8) -> u8 = oracle::deposit_u8(x, mask);
        ply_scatter_u16(x: u16, mask: u16) -> u16 = oracle::deposit_u16(x, mask);
        ply_scatter_u32(x: u32, mask: u32) -> u32 = oracle::deposit_u32(x, mask);
        ply_scatter_u64(x: u64, mask: u64) -> u64 = oracle::deposit_u64(x, mask);
    }
}

/// The next multiple as given, or 0.
#[inline]
fn next<T: Given + Default>(a: T, d: T) -> T {
    Given::checked_next_multiple_of(a, d).unwrap_or_default()
}

fn signed_forms() -> Vec<Row> {
    rows! {
        operands;
        ply_rem_euclid_i8_value(a: i8, d: i8) -> i8 = a.checked_rem_euclid(d).unwrap_or(0);
        ply_rem_euclid_i16_value(a: i16, d: i16) -> i16 = a.checked_rem_euclid(d).unwrap_or(0);
        ply_rem_euclid_i32_value(a: i32, d: i32) -> i32 = a.checked_rem_euclid(d).unwrap_or(0);
        ply_rem_euclid_i64_value(a: i64, d: i64) -> i64 = a.checked_rem_euclid(d).unwrap_or(0);
        ply_next_multiple_of_i8_value(a: i8, d: i8) -> i8 = next(a, d);
        ply_next_multiple_of_i16_value(a: i16, d: i16) -> i16 = next(a, d);
        ply_next_multiple_of_i32_value(a: i32, d: i32) -> i32 = next(a, d);
        ply_next_multiple_of_i64_value(a: i64, d: i64) -> i64 = next(a, d);
        ply_strict_add_i64_value(a: i64, b: i64) -> i64 = a.checked_add(b).unwrap_or(0);
        ply_strict_sub_i64_value(a: i64, b: i64) -> i64 = a.checked_sub(b).unwrap_or(0);
        ply_strict_neg_i64_value(a: i64) -> i64 = a.checked_neg().unwrap_or(0);
        ply_strict_abs_i64_value(a: i64) -> i64 = a.checked_abs().unwrap_or(0);
        ply_wrapping_add_i64(a: i64, b: i64) -> i64 = a.wrapping_add(b);
        ply_wrapping_sub_i64(a: i64, b: i64) -> i64 = a.wrapping_sub(b);
        ply_wrapping_neg_i64(a: i64) -> i64 = a.wrapping_neg();
        ply_unsigned_abs_i64(a: i64) -> u64 = a.unsigned_abs();
    }
}
