//! The records that `record_program` answers.

use super::{extreme_pairs, extremes, List};
use crate::record::{answers, listed, one_operand, width};
use crate::{masks, powers_of_ten, Random};

/// How many records each operation has at each of its types.
const EACH: usize = 128;

/// The rules' whole case, as operation, width code, a and b.
const WHOLE_CASE: [(u8, u8, u64, u64); 3] = [(0, 3, 0x11, 0), (4, 4, 0xF9, 4), (5, 4, 0x7F, 2)];

/// A record's 17 bytes.
fn record((operation, code, a, b): (u8, u8, u64, u64)) -> Vec<u8> {
    let head = [operation << 4 | code];
    [&head[..], &a.to_be_bytes(), &b.to_be_bytes()].concat()
}

/// A square of this width, and the numbers beside it.
fn square(random: &mut Random, width: u32) -> [u64; 3] {
    let root = random.word(width / 2);
    let square = root * root;
    [square.saturating_sub(1), square, square + 1]
}

/// Operands of a root or a log: extremes, powers of ten and squares with the numbers beside them, random ones.
fn numbers(random: &mut Random, width: u32) -> Vec<(u64, u64)> {
    let squares = (0..12)
        .flat_map(|_| square(random, width))
        .collect::<Vec<_>>();
    let chosen = extremes(width)
        .into_iter()
        .chain(powers_of_ten(width))
        .chain(squares);
    let randoms = std::iter::repeat_with(|| random.word(width));
    chosen.chain(randoms).map(|a| (a, 0)).take(EACH).collect()
}

/// Words with masks of every kind.
fn masked(random: &mut Random, width: u32) -> Vec<(u64, u64)> {
    masks(width)
        .map(|mask| (random.word(width), mask))
        .take(EACH)
        .collect()
}

/// Numbers with divisors: every pair of extremes, random ones.
fn divided(random: &mut Random, width: u32) -> Vec<(u64, u64)> {
    let randoms = std::iter::repeat_with(|| (random.word(width), random.word(width)));
    extreme_pairs(width).chain(randoms).take(EACH).collect()
}

/// Operands that the type refuses: a bit above the width in either, and a second operand where there is none.
fn refused(random: &mut Random, operation: u8, width: u32) -> Vec<(u64, u64)> {
    let mut operand = || random.word(width);
    let mut operands = Vec::new();
    if one_operand(operation) {
        operands.extend([(operand(), 1), (operand(), 1 << 63), (0, operand() | 1)]);
    }
    if width < 64 {
        for above in [1 << width, 1 << 63] {
            operands.extend([(operand() | above, 0), (operand(), operand() | above)]);
        }
    }
    operands
}

/// The operands of an operation at a type.
fn operands(random: &mut Random, operation: u8, code: u8) -> Vec<(u64, u64)> {
    let width = width(code);
    let mut all = match operation {
        0 | 1 => numbers(random, width),
        2 | 3 => masked(random, width),
        _ => divided(random, width),
    };
    all.extend(refused(random, operation, width));
    all
}

/// The list of records: the rules' whole case, then every operation at every type, every head with operands that are 0
/// and with operands that are all ones, and a tail that is one byte short of a record.
pub fn records() -> List {
    let mut random = Random::new(20);
    let each = listed().into_iter().flat_map(|(operation, code)| {
        let operands = operands(&mut random, operation, code);
        operands
            .into_iter()
            .map(move |(a, b)| (operation, code, a, b))
    });
    let heads = (0..=u8::MAX).flat_map(|head| [0, u64::MAX].map(|x| (head >> 4, head & 15, x, x)));
    let all = WHOLE_CASE.into_iter().chain(each).chain(heads);
    let mut stdin: Vec<u8> = all.flat_map(record).collect();
    stdin.extend(&record(WHOLE_CASE[0])[..16]);
    let stdout = answers(&stdin);
    List { stdin, stdout }
}

#[cfg(test)]
mod tests {
    use super::*;

    #[test]
    fn every_operation_at_every_type_has_answers_and_every_refusal_is_there() {
        let List { stdin, stdout } = records();
        let asked = stdin
            .chunks(17)
            .map(|record| (record[0] >> 4, record[0] & 15));
        let refusals = stdout.chunks(9).map(|answer| answer[0] >> 4);
        let both: Vec<_> = asked.zip(refusals).collect();
        assert!(both.len() >= 4000);
        for (operation, code) in listed() {
            let count = |refusal| {
                both.iter()
                    .filter(|x| **x == ((operation, code), refusal))
                    .count()
            };
            assert!(count(0) >= 40, "operation {operation} at {code}");
            assert_eq!(count(11), 0, "operation {operation} at {code}");
            assert!(
                code % 4 == 3 && !one_operand(operation) || count(12) >= 3,
                "operation {operation} at {code}"
            );
            let own: &[u8] = match (operation, code) {
                (0, 4..) => &[1],
                (1, _) => &[2],
                (4.., _) => &[3, 4],
                _ => &[],
            };
            assert!(
                own.iter().all(|refusal| count(*refusal) > 0),
                "operation {operation} at {code}"
            );
        }
        let given = |refusal| both.iter().filter(|x| x.1 == refusal).count();
        assert_eq!(
            (1..16)
                .filter(|refusal| given(*refusal) > 0)
                .collect::<Vec<_>>(),
            [1, 2, 3, 4, 11, 12, 13]
        );
        // All heads but the 32 listed, twice; and the short tail.
        assert_eq!((given(11), given(13)), (2 * (256 - 32), 1));
    }
}
