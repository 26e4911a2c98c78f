//! What a record is answered, over again from the rules, with Rust's own code for each operation.

use crate::{num, Signed};

/// The refusals of records, as the rules number them.
const NEGATIVE_ROOT: u8 = 1;
const NO_LOG: u8 = 2;
const DIVISOR_ZERO: u8 = 3;
const NO_FIT: u8 = 4;
const NO_OPERATION: u8 = 11;
const BAD_OPERAND: u8 = 12;
const WRONG_LENGTH: u8 = 13;

/// A record's length, and an answer's.
const RECORD: usize = 17;
const ANSWER: usize = 9;

/// An operation at one type, on its operands' bits: the value's bits, or the refusal's number.
type Form = fn(u64, u64) -> Result<u64, u8>;

macro_rules! unsigned {
    ($($uint:ident: $isqrt:ident $ilog10:ident $extract:ident $deposit:ident;)+) => {$(
        fn $uint(operation: u8) -> Option<Form> {
            Some(match operation {
                0 => |a, _| Ok(num::$isqrt(a as $uint).into()),
                1 => |a, _| num::$ilog10(a as $uint).map(u64::from).ok_or(NO_LOG),
                2 => |x, mask| Ok(num::$extract(x as $uint, mask as $uint).into()),
                3 => |x, mask| Ok(num::$deposit(x as $uint, mask as $uint).into()),
                _ => return None,
            })
        }
    )+};
}

unsigned! {
    u8: isqrt_u8 ilog10_u8 extract_u8 deposit_u8;
    u16: isqrt_u16 ilog10_u16 extract_u16 deposit_u16;
    u32: isqrt_u32 ilog10_u32 extract_u32 deposit_u32;
    u64: isqrt_u64 ilog10_u64 extract_u64 deposit_u64;
}

/// Why a division has no number.
fn undivided(d: u64) -> u8 {
    if d == 0 {
        DIVISOR_ZERO
    } else {
        NO_FIT
    }
}

macro_rules! signed {
    ($($int:ident: $isqrt:ident $ilog10:ident;)+) => {$(
        fn $int(operation: u8) -> Option<Form> {
            fn bits(number: $int) -> u64 {
                number.cast_unsigned().into()
            }
            Some(match operation {
                0 => |a, _| num::$isqrt(a as $int).map(bits).ok_or(NEGATIVE_ROOT),
                1 => |a, _| num::$ilog10(a as $int).map(u64::from).ok_or(NO_LOG),
                4 => |a, d| Signed::rem_euclid(a as $int, d as $int).map(bits).ok_or(undivided(d)),
                5 => |a, d| Signed::next_multiple_of(a as $int, d as $int).map(bits).ok_or(undivided(d)),
                _ => return None,
            })
        }
    )+};
}

signed! {
    i8: isqrt_i8 ilog10_i8;
    i16: isqrt_i16 ilog10_i16;
    i32: isqrt_i32 ilog10_i32;
    i64: isqrt_i64 ilog10_i64;
}

/// How many bits an operand of this width code has.
pub fn width(code: u8) -> u32 {
    8 << (code % 4)
}

/// The operation at the type of a width code, if it is listed and takes that type.
fn form(operation: u8, code: u8) -> Option<Form> {
    let types = [u8, u16, u32, u64, i8, i16, i32, i64];
    types.get(usize::from(code))?(operation)
}

/// Each operation with each width code that it takes.
pub fn listed() -> Vec<(u8, u8)> {
    let heads = (0..16).flat_map(|operation| (0..16).map(move |code| (operation, code)));
    heads
        .filter(|(operation, code)| form(*operation, *code).is_some())
        .collect()
}

/// Whether the operation takes one operand only: root and log do.
pub fn one_operand(operation: u8) -> bool {
    operation < 2
}

/// The value's bits, or the refusal's number.
fn reply(record: &[u8]) -> Result<u64, u8> {
    let record: &[u8; RECORD] = record.try_into().map_err(|_| WRONG_LENGTH)?;
    let [head, operands @ ..] = record;
    let (operation, code) = (head >> 4, head & 15);
    let form = form(operation, code).ok_or(NO_OPERATION)?;
    let number = |bytes: &[u8]| bytes.iter().fold(0, |n, byte| n << 8 | u64::from(*byte));
    let (a, b) = (number(&operands[..8]), number(&operands[8..]));
    let too_wide = |word: u64| word > u64::MAX >> (64 - width(code));
    if too_wide(a) || too_wide(b) || one_operand(operation) && b != 0 {
        return Err(BAD_OPERAND);
    }
    form(a, b)
}

/// The answer to a record of any length.
pub fn answer(record: &[u8]) -> [u8; ANSWER] {
    let (refusal, value) = reply(record).map_or_else(|refusal| (refusal, 0), |value| (0, value));
    let mut answer = [0; ANSWER];
    answer[0] = refusal << 4;
    answer[1..].copy_from_slice(&value.to_be_bytes());
    answer
}

/// The answers to all the records of an input, and to its short tail.
pub fn answers(input: &[u8]) -> Vec<u8> {
    input.chunks(RECORD).flat_map(answer).collect()
}

#[cfg(test)]
mod tests {
    use super::*;

    /// The bytes of two hexadecimal digits each, spaces left out.
    fn bytes(text: &str) -> Vec<u8> {
        let digits: Vec<u8> = text.bytes().filter(|c| *c != b' ').collect();
        let byte = |two: &[u8]| u8::from_str_radix(std::str::from_utf8(two).unwrap(), 16).unwrap();
        digits.chunks(2).map(byte).collect()
    }

    fn answered(record: &str) -> Vec<u8> {
        answer(&bytes(record)).to_vec()
    }

    #[test]
    fn the_rules_whole_case() {
        let records = "03 0000000000000011 0000000000000000 \
                       44 00000000000000F9 0000000000000004 \
                       54 000000000000007F 0000000000000002";
        let right = "00 0000000000000004 00 0000000000000001 40 0000000000000000";
        assert_eq!(answers(&bytes(records)), bytes(right));
    }

    #[test]
    fn the_operations_take_the_widths_that_the_rules_list() {
        let codes = |operation| listed().into_iter().filter(move |x| x.0 == operation);
        let taken = (0..16).map(|operation| codes(operation).map(|x| x.1).collect::<Vec<_>>());
        let [all, unsigned, signed]: [Vec<u8>; 3] = [0..8, 0..4, 4..8].map(Iterator::collect);
        let six = [&all, &all, &unsigned, &unsigned, &signed, &signed];
        assert!(taken.eq(six.into_iter().cloned().chain(vec![vec![]; 10])));
    }

    #[test]
    fn the_refusal_that_comes_first_is_given() {
        let zero = "0000000000000000";
        let wide = "0000000000000100";
        // An operation or a width that is not listed, before an operand that is too wide.
        for head in ["60", "08", "24", "40", "FF"] {
            assert_eq!(
                answered(&format!("{head} {wide} {wide}")),
                bytes(&format!("B0 {zero}"))
            );
        }
        // An operand, before the operation's own refusal.
        assert_eq!(
            answered(&format!("44 {wide} {zero}")),
            bytes(&format!("C0 {zero}"))
        );
        assert_eq!(
            answered(&format!("10 {zero} 0000000000000001")),
            bytes(&format!("C0 {zero}"))
        );
        // A length, before all.
        assert_eq!(
            answered(&format!("FF {wide}")),
            bytes(&format!("D0 {zero}"))
        );
        assert_eq!(
            answered(&format!("FF {wide} {wide} 00")),
            bytes(&format!("D0 {zero}"))
        );
    }

    #[test]
    fn an_input_that_is_empty_or_cut() {
        assert_eq!(answers(&[]), []);
        for length in 1..=40 {
            let wrote = answers(&vec![0; length]);
            assert_eq!(wrote.len(), 9 * length.div_ceil(17));
            let tail = wrote[wrote.len() - 9] >> 4;
            assert_eq!(tail, if length % 17 == 0 { 0 } else { 13 });
        }
    }
}
