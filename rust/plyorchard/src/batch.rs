//! Gather and scatter of a slice of 64-bit words into a destination.

use crate::Refusal;

/// Calls the C function of a batch on two slices.
macro_rules! call {
    ($function:ident($source:ident, $mask:ident, $destination:ident, $place:ident)) => {{
        extern "C" {
            fn $function(
                source: *const u64,
                words: usize,
                mask: u64,
                destination: *mut u64,
                size: usize,
                place: usize,
            ) -> u8;
        }
        let (from, words) = ($source.as_ptr(), $source.len());
        let (to, size) = ($destination.as_mut_ptr(), $destination.len());
        // SAFETY: the archive has the function with these types; the pointers and counts are those of two slices that do
        // not overlap and are ours for the call, and the function is proved to be safe on all such slices and numbers.
        Refusal::accepted(unsafe { $function(from, words, $mask, to, size, $place) })
    }};
}

/// Writes each word of the source, gathered under `mask`, into the destination from `place` on.
///
/// Every other word of the destination stays. Refused with 10 where `place` lies past the destination's end or the source
/// is longer than what remains, and then nothing changes.
///
/// ```
/// use plyorchard::{gather_batch, Refusal};
///
/// let mut destination = [7; 4];
/// assert_eq!(gather_batch(&[0xFF00, 0x0AB0], 0x0FF0, &mut destination, 1), Ok(()));
/// assert_eq!(destination, [7, 0xF0, 0xAB, 7]);
/// assert_eq!(gather_batch(&[1, 2], 0x0FF0, &mut destination, 3), Err(Refusal::NoRoom));
/// assert_eq!(gather_batch(&[], 0x0FF0, &mut destination, 4), Ok(()));
/// ```
pub fn gather_batch(
    source: &[u64],
    mask: u64,
    destination: &mut [u64],
    place: usize,
) -> Result<(), Refusal> {
    call!(ply_gather_batch(source, mask, destination, place))
}

/// Writes each word of the source, scattered under `mask`, into the destination from `place` on.
///
/// Every other word of the destination stays. Refused as [`gather_batch`] is.
///
/// ```
/// use plyorchard::{scatter_batch, Refusal};
///
/// let mut destination = [7; 3];
/// assert_eq!(scatter_batch(&[0xF0, 0xAB], 0x0FF0, &mut destination, 0), Ok(()));
/// assert_eq!(destination, [0x0F00, 0x0AB0, 7]);
/// assert_eq!(scatter_batch(&[], 0x0FF0, &mut destination, 4), Err(Refusal::NoRoom));
/// ```
pub fn scatter_batch(
    source: &[u64],
    mask: u64,
    destination: &mut [u64],
    place: usize,
) -> Result<(), Refusal> {
    call!(ply_scatter_batch(source, mask, destination, place))
}
