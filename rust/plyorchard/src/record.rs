//! Records of 17 bytes, which name an operation, its width and its operands, and their answers of 9 bytes.

use crate::Refusal;

/// Answers one record: writes the refusal's number and the value into `answer`, and gives the refusal if there is one.
///
/// A record is, most significant bit first, an operation (4 bits: 0 root, 1 log, 2 gather, 3 scatter, 4 remainder, 5 next
/// multiple), a width (4: 0 to 3 unsigned 8, 16, 32 and 64 bits, 4 to 7 signed), a and b (64 each). An answer is a refusal
/// or 0 (4), zeros (4) and a value or 0 (64).
///
/// Refused, by the first that applies: with 13 where the record has not 17 bytes or the answer not 9, and then the answer
/// stays; with 11 where the operation or its width is not listed; with 12 where an operand has bits above its width or an
/// unused one is not 0; and as the operation itself is.
///
/// ```
/// use plyorchard::{record, Refusal};
///
/// let mut answer = [0; 9];
/// // The remainder of -7 by 4, at 8 bits.
/// let asked = [0x44, 0, 0, 0, 0, 0, 0, 0, 0xF9, 0, 0, 0, 0, 0, 0, 0, 4];
/// assert_eq!(record(&asked, &mut answer), Ok(()));
/// assert_eq!(answer, [0, 0, 0, 0, 0, 0, 0, 0, 1]);
/// // The multiple of 2 next to 127 does not fit in 8 bits.
/// let asked = [0x54, 0, 0, 0, 0, 0, 0, 0, 0x7F, 0, 0, 0, 0, 0, 0, 0, 2];
/// assert_eq!(record(&asked, &mut answer), Err(Refusal::NoFit));
/// assert_eq!(answer, [0x40, 0, 0, 0, 0, 0, 0, 0, 0]);
/// // A record that is cut.
/// assert_eq!(record(&asked[..16], &mut answer), Err(Refusal::WrongLength));
/// assert_eq!(answer, [0x40, 0, 0, 0, 0, 0, 0, 0, 0]);
/// ```
pub fn record(record: &[u8], answer: &mut [u8]) -> Result<(), Refusal> {
    extern "C" {
        fn ply_record(record: *const u8, length: usize, answer: *mut u8, room: usize) -> u8;
    }
    let (asked, length) = (record.as_ptr(), record.len());
    let (answer, room) = (answer.as_mut_ptr(), answer.len());
    // SAFETY: the archive has the function with these types; the pointers and counts are those of two slices that do not
    // overlap and are ours for the call, and the function is proved to be safe on all such slices.
    Refusal::accepted(unsafe { ply_record(asked, length, answer, room) })
}
