//! Records through the C function, damaged ones among them, compared with the rules over again.

use oracle::record::{answer, listed, one_operand, width};
use oracle::{Counter, Random};
use plyorchard::Refusal;
use std::collections::BTreeSet;

/// The refusal of a wrong length, as the rules number it.
const WRONG_LENGTH: u8 = 13;

/// One record, by the rules: where a length is wrong the answer stays, else it is written.
fn one(record: &[u8], answered: &mut [u8]) -> Result<(), u8> {
    if record.len() != 17 || answered.len() != 9 {
        return Err(WRONG_LENGTH);
    }
    answered.copy_from_slice(&answer(record));
    match answered[0] >> 4 {
        0 => Ok(()),
        refusal => Err(refusal),
    }
}

/// A record of 17 bytes: an operation with operands of its width, or one with damage to its head or to an operand.
fn record(random: &mut Random, listed: &[(u8, u8)]) -> Vec<u8> {
    let (operation, code) = random.pick(listed);
    let mut operand = || random.word(width(code));
    let (a, b) = (operand(), operand());
    let b = if one_operand(operation) { 0 } else { b };
    let head = operation << 4 | code;
    let (head, a, b) = match random.below(8) {
        0 => (random.bits() as u8, a, b),
        1 => (head, a | 1 << random.below(64), b),
        2 => (head, a, b | 1 << random.below(64)),
        3 => (head, random.bits(), random.bits()),
        _ => (head, a, b),
    };
    [&[head][..], &a.to_be_bytes(), &b.to_be_bytes()].concat()
}

/// A length: the right one, or one beside it, none, or any.
fn length(random: &mut Random, right: usize) -> usize {
    match random.below(16) {
        0 => 0,
        1 => right - 1,
        2 => right + 1,
        3 => random.below(40),
        _ => right,
    }
}

#[test]
fn any_record_of_any_length() {
    let mut random = Random::new(25);
    let listed = listed();
    let mut calls = Counter::new("records");
    let mut refusals = BTreeSet::new();
    for _ in 0..1 << 18 {
        let mut asked = record(&mut random, &listed);
        asked.resize(length(&mut random, 17), 0);
        let mut ours = vec![random.bits() as u8; length(&mut random, 9)];
        let mut model = ours.clone();
        let returned = plyorchard::record(&asked, &mut ours).map_err(Refusal::number);
        let right = one(&asked, &mut model);
        refusals.extend(right.err());
        calls.lent(asked, (returned, &ours), (right, &model));
    }
    assert!(refusals.into_iter().eq([1, 2, 3, 4, 11, 12, 13]));
}
