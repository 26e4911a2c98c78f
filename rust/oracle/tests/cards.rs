//! The card table through the C functions: every call compared with the plain table, on damaged arguments too.

use oracle::{masks, table, Counter, Random};
use plyorchard::{card_read, card_read_answer, card_write, Refusal};

/// Lengths on either side of the limit, and the shortest.
const LENGTHS: [usize; 5] = [0, 1, 4095, 4096, 4097];

/// Indexes on either side of the table's end, and far from it.
fn cards(length: usize) -> [usize; 6] {
    let end = length.saturating_sub(1);
    [0, end / 2, end, length, length + 1, usize::MAX]
}

/// Numbers on either side of what fits under a mask, and far above.
fn widths(mask: u64) -> [u64; 6] {
    let past = 1u64.checked_shl(mask.count_ones()).unwrap_or(0);
    let most = past.wrapping_sub(1);
    [0, 1, most, past, past.wrapping_add(1), u64::MAX]
}

/// The table that the C functions write, and the plain one.
struct Tables {
    ours: Vec<u64>,
    model: Vec<u64>,
    calls: Counter,
}

impl Tables {
    /// Two equal tables of random words.
    fn new(run: &'static str, length: usize) -> Tables {
        let mut random = Random::new(length as u64);
        let ours: Vec<u64> = (0..length).map(|_| random.bits()).collect();
        let (model, calls) = (ours.clone(), Counter::new(run));
        Tables { ours, model, calls }
    }

    /// Compares a read: both C functions and the safe one.
    fn read(&mut self, card: usize, mask: u64) {
        let answer = card_read_answer(&self.ours, card, mask);
        let numbers = (answer.refusal, answer.value);
        let safe = card_read(&self.ours, card, mask).map_err(Refusal::number);
        let right = table::read(&self.model, card, mask);
        self.calls.answer((card, mask), safe, numbers, right);
    }

    /// Compares a write: its answer, and the whole table that it leaves.
    fn write(&mut self, card: usize, mask: u64, expected: u64, new: u64) {
        let answer = card_write(&mut self.ours, card, mask, expected, new);
        let right = table::write(&mut self.model, card, mask, expected, new);
        let input = (card, mask, expected, new);
        let ours = (answer.map_err(Refusal::number), &*self.ours);
        self.calls.lent(input, ours, (right, &*self.model));
    }

    /// Writes of the number that is there, of others beside it, and of numbers too wide for the mask.
    fn damaged_writes(&mut self, card: usize, mask: u64) {
        let there = table::read(&self.model, card, mask).unwrap_or(0);
        for expected in widths(mask).into_iter().chain([there, there ^ 1]) {
            for new in widths(mask) {
                self.write(card, mask, expected, new);
            }
        }
    }
}

#[test]
fn damaged_arguments_are_refused_and_change_nothing() {
    for length in LENGTHS {
        let mut tables = Tables::new("card table, damaged arguments", length);
        for card in cards(length) {
            for mask in masks(64).take(40) {
                tables.read(card, mask);
                tables.damaged_writes(card, mask);
            }
        }
    }
}

#[test]
fn calls_equal_the_plain_table() {
    let mut random = Random::new(10);
    let mut tables = Tables::new("card table, any arguments", 8);
    for mask in masks(64).take(1 << 18) {
        let card = random.below(9);
        tables.read(card, mask);
        let there = table::read(&tables.model, card, mask).unwrap_or(0);
        // A number that is gathered from some word is narrow enough for the mask.
        let narrow = table::read(&[random.bits()], 0, mask).unwrap_or(0);
        let any = random.word(64);
        let expected = random.pick(&[there, there, there, any]);
        let new = random.pick(&[narrow, narrow, narrow, any]);
        tables.write(card, mask, expected, new);
    }
}
