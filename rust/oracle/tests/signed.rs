//! The signed forms through the C functions, compared with Rust's own at each width.

use oracle::{pairs, values, Counter, Signed as Rust};
use plyorchard::{Refusal, Signed as Proved};
use std::fmt::Debug;

/// Refusal numbers, as the rules have them.
const DIVISOR_ZERO: u8 = 3;
const NO_FIT: u8 = 4;

/// Compares a form that can be refused on one input: both its C functions, and the safe function over them.
macro_rules! refusable {
    ($calls:ident, $refusal:expr, $form:ident::<$int:ident>($($operand:ident),+)) => {{
        let input = (stringify!($form), $($operand),+);
        let rust = <$int as Rust>::$form($($operand),+);
        let ours = <$int as Proved>::$form($($operand),+);
        let safe = plyorchard::$form($($operand),+).map_err(Refusal::number);
        $calls.answer(input, safe, (ours.refusal, ours.value), rust.ok_or($refusal));
    }};
}

/// Compares a form that is never refused on one input.
macro_rules! direct {
    ($calls:ident, $form:ident::<$int:ident>($($operand:ident),+)) => {{
        let rust = <$int as Rust>::$form($($operand),+);
        $calls.value((stringify!($form), $($operand),+), plyorchard::$form($($operand),+), rust);
    }};
}

fn unary<T, U>(calls: &mut Counter, a: T)
where
    T: Proved<Unsigned = U> + Rust<Unsigned = U> + Debug + Default + PartialEq,
    U: Debug + PartialEq,
{
    refusable!(calls, NO_FIT, strict_neg::<T>(a));
    refusable!(calls, NO_FIT, strict_abs::<T>(a));
    direct!(calls, wrapping_neg::<T>(a));
    direct!(calls, unsigned_abs::<T>(a));
}

fn binary<T: Proved + Rust + Debug + Default + PartialEq>(calls: &mut Counter, a: T, b: T) {
    refusable!(calls, NO_FIT, strict_add::<T>(a, b));
    refusable!(calls, NO_FIT, strict_sub::<T>(a, b));
    direct!(calls, wrapping_add::<T>(a, b));
    direct!(calls, wrapping_sub::<T>(a, b));
    let divisor = if b == T::default() {
        DIVISOR_ZERO
    } else {
        NO_FIT
    };
    refusable!(calls, divisor, rem_euclid::<T>(a, b));
    refusable!(calls, divisor, next_multiple_of::<T>(a, b));
}

macro_rules! run {
    ($($int:ident)+) => {$(
        #[test]
        fn $int() {
            let mut calls = Counter::new(concat!("signed forms, ", stringify!($int)));
            for a in values($int::BITS) {
                unary(&mut calls, <$int as Rust>::from_word(a));
            }
            for (a, b) in pairs($int::BITS) {
                binary(&mut calls, <$int as Rust>::from_word(a), <$int as Rust>::from_word(b));
            }
        }
    )+};
}

run!(i8 i16 i32 i64);
