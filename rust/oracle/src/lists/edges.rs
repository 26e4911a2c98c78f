//! What `edges` replays: the oracle's answers for the forms that no record reaches.
//!
//! An entry is its kind (a byte), the refusal or 0 (a byte), and 64-bit words, most significant byte first:
//! - a form of numbers: the value, a, b, in two's complement of their width with zeros above;
//! - a batch: how many words the source has, mask, how many the destination has, place, a seed for each of the two, and
//!   the 16 words of the destination's buffer afterwards;
//! - a read: the value, how many words the table has, its seed, card, mask;
//! - a guarded write: the card's word afterwards (0 where there is no such card), how many words the table has, its seed,
//!   card, mask, expected, new.
//!
//! The kinds are numbered in the order in which the program writes a line for each.

mod numbers;
mod slices;

use super::List;

/// What the program has to write of the rules' rows on either side of the edge, which it has in itself.
const ROWS: &str = "\
rows, root: 1 right, 0 wrong
rows, log: 3 right, 0 wrong
rows, remainder: 2 right, 0 wrong
rows, next multiple: 2 right, 0 wrong
rows, guarded write: 3 right, 0 wrong
";

/// The refusal or 0, and the words: a call's answer, and its arguments.
struct Entry {
    refusal: u8,
    words: Vec<u64>,
}

/// The entry of a call that gives a number or a refusal: the number, and then the arguments.
fn entry(answer: Result<u64, u8>, arguments: &[u64]) -> Entry {
    let (refusal, value) = answer.map_or_else(|refusal| (refusal, 0), |value| (0, value));
    let words = [&[value], arguments].concat();
    Entry { refusal, words }
}

/// All entries of a kind, under its name.
struct Kind {
    name: String,
    entries: Vec<Entry>,
}

impl Kind {
    /// The entries as bytes.
    fn bytes(&self, kind: u8) -> Vec<u8> {
        let entries = self.entries.iter().flat_map(|entry| {
            let words = entry.words.iter().flat_map(|word| word.to_be_bytes());
            [kind, entry.refusal].into_iter().chain(words)
        });
        entries.collect()
    }

    /// The line that the program has to write where so many answers are wrong.
    fn line(&self, wrong: usize) -> String {
        let right = self.entries.len() - wrong;
        format!("{}: {right} right, {wrong} wrong\n", self.name)
    }

    /// Damages two answers: the first refusal, and the last number or word that an accepted call gives.
    fn damage(&mut self) {
        self.entries[0].refusal ^= 1;
        let accepted = self.entries.iter_mut().rfind(|entry| entry.refusal == 0);
        let words = &mut accepted.expect("an accepted call").words;
        let given = if self.name.ends_with("batch") {
            words.len() - 1
        } else {
            0
        };
        words[given] ^= 1;
    }
}

/// The kinds, in the order of their numbers.
fn kinds() -> Vec<Kind> {
    let mut kinds = numbers::kinds();
    kinds.extend(slices::kinds());
    kinds
}

/// A list of all entries, and a line for each kind, of which so many answers are wrong.
fn list(kinds: &[Kind], wrong: usize) -> List {
    let stdin = (0..)
        .zip(kinds)
        .flat_map(|(number, kind)| kind.bytes(number));
    let lines: String = kinds.iter().map(|kind| kind.line(wrong)).collect();
    List {
        stdin: stdin.collect(),
        stdout: format!("{ROWS}{lines}left over: 0 bytes\n").into(),
    }
}

/// The list that the program replays.
pub fn edges() -> List {
    list(&kinds(), 0)
}

/// The same list with two answers of each kind damaged.
pub fn damaged_edges() -> List {
    let mut kinds = kinds();
    kinds.iter_mut().for_each(Kind::damage);
    list(&kinds, 2)
}

#[cfg(test)]
mod tests {
    use super::*;
    use std::collections::BTreeSet;

    /// The refusals among a kind's entries, 0 for accepted.
    fn refusals(kind: &Kind) -> Vec<u8> {
        let given: BTreeSet<u8> = kind.entries.iter().map(|entry| entry.refusal).collect();
        given.into_iter().collect()
    }

    #[test]
    fn every_kind_is_accepted_and_refused_as_it_can_be() {
        let kinds = kinds();
        assert_eq!(kinds.len(), 8 * 4 + 5);
        for kind in kinds {
            let own: &[u8] = match kind.name.split(' ').next() {
                Some("strict_add" | "strict_sub" | "strict_neg" | "strict_abs") => &[0, 4],
                Some("digit_count") => &[0, 2],
                Some("gather_batch" | "scatter_batch") => &[0, 10],
                Some("card_read") => &[0, 5, 6, 7],
                Some("card_write") => &[0, 5, 6, 7, 8, 9],
                _ => &[0],
            };
            assert_eq!(refusals(&kind), own, "{}", kind.name);
            assert!(kind.entries.len() >= 64, "{}", kind.name);
        }
    }
}
