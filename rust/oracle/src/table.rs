//! The guarded card table over again, plainly, from the rules alone: bit by bit, with no stage masks.

/// The refusals of a read and of a guarded write, as the rules number them.
const TOO_LONG: u8 = 5;
const NO_CARD: u8 = 6;
const EMPTY_MASK: u8 = 7;
const TOO_WIDE: u8 = 8;
const DIFFERS: u8 = 9;

/// The places of the mask's ones, lowest first.
fn ones(mask: u64) -> impl Iterator<Item = usize> {
    (0..64).filter(move |place| mask >> place & 1 == 1)
}

/// The bits of the word at the mask's ones, as a number.
fn gathered(word: u64, mask: u64) -> u64 {
    let bits = ones(mask).map(|place| word >> place & 1);
    bits.enumerate().map(|(i, bit)| bit << i).sum()
}

/// The word with the number's bits at the mask's ones.
fn stored(word: u64, mask: u64, number: u64) -> u64 {
    let places = ones(mask).enumerate();
    places.fold(word, |word, (i, place)| {
        word & !(1 << place) | (number >> i & 1) << place
    })
}

/// Whether a number needs more bits than the mask has ones.
fn too_wide(number: u64, mask: u64) -> bool {
    u64::BITS - number.leading_zeros() > mask.count_ones()
}

/// What a read gives, or its refusal's number.
pub fn read(table: &[u64], card: usize, mask: u64) -> Result<u64, u8> {
    if table.len() > 4096 {
        return Err(TOO_LONG);
    }
    let word = table.get(card).ok_or(NO_CARD)?;
    if mask == 0 {
        return Err(EMPTY_MASK);
    }
    Ok(gathered(*word, mask))
}

/// A guarded write, or its refusal's number.
pub fn write(table: &mut [u64], card: usize, mask: u64, expected: u64, new: u64) -> Result<(), u8> {
    let number = read(table, card, mask)?;
    if too_wide(expected, mask) || too_wide(new, mask) {
        return Err(TOO_WIDE);
    }
    if number != expected {
        return Err(DIFFERS);
    }
    table[card] = stored(table[card], mask, new);
    Ok(())
}
