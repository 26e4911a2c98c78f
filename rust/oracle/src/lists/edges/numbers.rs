//! The signed forms that no record reaches, and the digit count.

use super::{entry, Kind};
use crate::inputs::low;
use crate::lists::{extreme_pairs, extremes};
use crate::{ilog10_u64, powers_of_ten, Random, Signed};
use std::iter::repeat_with;

/// How many entries a form of two operands has, and how many a form of one.
const TWO: usize = 128;
const ONE: usize = 64;

/// The refusals of numbers, as the rules number them.
const NO_LOG: u8 = 2;
const NO_FIT: u8 = 4;

/// The signed forms, those of two operands first.
const NAMES: [&str; 8] = [
    "strict_add",
    "strict_sub",
    "wrapping_add",
    "wrapping_sub",
    "strict_neg",
    "strict_abs",
    "wrapping_neg",
    "unsigned_abs",
];

/// A signed form on its operands' bits: the value's bits, or the refusal's number.
type Form = fn(u64, u64) -> Result<u64, u8>;

/// The signed forms at one type, in the order of their names.
macro_rules! forms {
    ($($int:ident)+) => {$(
        fn $int() -> [Form; 8] {
            fn bits(number: $int) -> u64 {
                number.cast_unsigned().into()
            }
            [
                |a, b| Signed::strict_add(a as $int, b as $int).map(bits).ok_or(NO_FIT),
                |a, b| Signed::strict_sub(a as $int, b as $int).map(bits).ok_or(NO_FIT),
                |a, b| Ok(bits(Signed::wrapping_add(a as $int, b as $int))),
                |a, b| Ok(bits(Signed::wrapping_sub(a as $int, b as $int))),
                |a, _| Signed::strict_neg(a as $int).map(bits).ok_or(NO_FIT),
                |a, _| Signed::strict_abs(a as $int).map(bits).ok_or(NO_FIT),
                |a, _| Ok(bits(Signed::wrapping_neg(a as $int))),
                |a, _| Ok(Signed::unsigned_abs(a as $int).into()),
            ]
        }
    )+};
}

forms!(i8 i16 i32 i64);

/// A number with those whose sum with it, or whose difference from it, is the greatest of the width or one above.
fn beside_the_edge(a: u64, width: u32) -> [(u64, u64); 4] {
    let (most, past) = ((1u64 << (width - 1)) - 1, 1u64 << (width - 1));
    let sums = [most.wrapping_sub(a), past.wrapping_sub(a)];
    let differences = [a.wrapping_sub(most), a.wrapping_sub(past)];
    [sums[0], sums[1], differences[0], differences[1]].map(|b| (a, low(b, width)))
}

/// The operands of a form of two: every pair of extremes, pairs beside the edge, random ones.
fn pairs(width: u32) -> Vec<(u64, u64)> {
    let mut random = Random::new(u64::from(width));
    let first: Vec<u64> = repeat_with(|| random.word(width)).take(12).collect();
    let beside = first.into_iter().flat_map(|a| beside_the_edge(a, width));
    let randoms = repeat_with(|| (random.word(width), random.word(width)));
    extreme_pairs(width)
        .chain(beside)
        .chain(randoms)
        .take(TWO)
        .collect()
}

/// The operand of a form of one, and 0: the extremes, random ones.
fn singles(width: u32) -> Vec<(u64, u64)> {
    let mut random = Random::new(u64::from(width));
    let randoms = repeat_with(|| random.word(width));
    let words = extremes(width).into_iter().chain(randoms);
    words.map(|a| (a, 0)).take(ONE).collect()
}

/// A form's entries.
fn entries(name: String, form: Form, operands: Vec<(u64, u64)>) -> Kind {
    let entries = operands
        .into_iter()
        .map(|(a, b)| entry(form(a, b), &[a, b]));
    Kind {
        name,
        entries: entries.collect(),
    }
}

/// The digit count's entries, with 0 for b: powers of ten and the numbers beside them, extremes, random ones.
fn digit_count() -> Kind {
    let mut random = Random::new(0);
    let randoms = repeat_with(|| random.word(64));
    let words = powers_of_ten(64).chain(extremes(64)).chain(randoms);
    let count = |v, _| ilog10_u64(v).map(|log| u64::from(log) + 1).ok_or(NO_LOG);
    entries(
        "digit_count".into(),
        count,
        words.map(|v| (v, 0)).take(TWO).collect(),
    )
}

/// Each signed form at each type, and the digit count.
pub fn kinds() -> Vec<Kind> {
    let types = [(8, i8()), (16, i16()), (32, i32()), (64, i64())];
    let mut kinds = Vec::new();
    for (form, name) in NAMES.into_iter().enumerate() {
        for (width, forms) in types {
            let operands = if form < 4 {
                pairs(width)
            } else {
                singles(width)
            };
            kinds.push(entries(format!("{name} i{width}"), forms[form], operands));
        }
    }
    kinds.push(digit_count());
    kinds
}
