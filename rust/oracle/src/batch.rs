//! Batches over again, plainly, from the rules.

/// The refusal of a batch, as the rules number it.
const NO_ROOM: u8 = 10;

/// What a batch leaves of a destination: each result in its place, if all of them fit.
pub fn placed(
    word: fn(u64, u64) -> u64,
    source: &[u64],
    mask: u64,
    destination: &mut [u64],
    place: usize,
) -> Result<(), u8> {
    let room = destination.get_mut(place..).ok_or(NO_ROOM)?;
    let room = room.get_mut(..source.len()).ok_or(NO_ROOM)?;
    for (result, x) in room.iter_mut().zip(source) {
        *result = word(*x, mask);
    }
    Ok(())
}
