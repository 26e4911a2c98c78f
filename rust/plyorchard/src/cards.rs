//! The guarded card table: a slice of words, one for each card, whose fields lie under masks.
//!
//! A till reads a field and later writes it, expecting the number that it read. Whatever other tills did in between, the
//! table is then as if each accepted till had read and written at once, one after the other: that is proved of every
//! interleaving of [`card_read`] and [`card_write`], if nothing else writes the table.

use crate::calls::Answer;
use crate::Refusal;

/// The number in the field under `mask` of a card.
///
/// Refused, by the first that applies: with 5 where the table has more than 4,096 words, with 6 where it has no such card,
/// with 7 where the mask is 0.
///
/// ```
/// use plyorchard::{card_read, Refusal};
///
/// let table = [0xFF00, 0];
/// assert_eq!(card_read(&table, 0, 0x0FF0), Ok(0xF0));
/// assert_eq!(card_read(&table, 2, 0x0FF0), Err(Refusal::NoSuchCard));
/// assert_eq!(card_read(&table, 0, 0), Err(Refusal::EmptyMask));
/// ```
pub fn card_read(table: &[u64], card: usize, mask: u64) -> Result<u64, Refusal> {
    card_read_answer(table, card, mask).result()
}

/// Puts `new` into the field under `mask` of a card, if the field holds `expected`; no other bit of the table changes.
///
/// Refused, by the first that applies, and then nothing changes: with 5, 6 and 7 as [`card_read`] is, with 8 where
/// `expected` or `new` has more bits than the mask has ones, with 9 where the field holds another number.
///
/// ```
/// use plyorchard::{card_write, Refusal};
///
/// let mut table = [0xFF00];
/// assert_eq!(card_write(&mut table, 0, 0x0FF0, 0xF0, 0x0A), Ok(()));
/// assert_eq!(table, [0xF0A0]);
/// assert_eq!(card_write(&mut table, 0, 0x0FF0, 0xF0, 0x0A), Err(Refusal::Differs));
/// assert_eq!(card_write(&mut table, 0, 0x0FF0, 0x0A, 0x100), Err(Refusal::TooWide));
/// assert_eq!(table, [0xF0A0]);
/// ```
pub fn card_write(
    table: &mut [u64],
    card: usize,
    mask: u64,
    expected: u64,
    new: u64,
) -> Result<(), Refusal> {
    extern "C" {
        fn ply_card_write(
            table: *mut u64,
            words: usize,
            card: usize,
            mask: u64,
            expected: u64,
            new: u64,
        ) -> u8;
    }
    let words = table.len();
    // SAFETY: the archive has the function with these types; pointer and count are those of a slice that is ours for the
    // call, and the function is proved to be safe on every such slice and every number.
    Refusal::accepted(unsafe {
        ply_card_write(table.as_mut_ptr(), words, card, mask, expected, new)
    })
}

/// The C functions of a read themselves, for the tests.
#[doc(hidden)]
pub fn card_read_answer(table: &[u64], card: usize, mask: u64) -> Answer<u64> {
    extern "C" {
        fn ply_card_read_refusal(table: *const u64, words: usize, card: usize, mask: u64) -> u8;
        fn ply_card_read_value(table: *const u64, words: usize, card: usize, mask: u64) -> u64;
    }
    let (start, words) = (table.as_ptr(), table.len());
    // SAFETY: the archive has both functions with these types; pointer and count are those of a slice that stays borrowed
    // for the calls, and the functions are proved to be safe on every such slice and every number.
    unsafe {
        Answer {
            refusal: ply_card_read_refusal(start, words, card, mask),
            value: ply_card_read_value(start, words, card, mask),
        }
    }
}
