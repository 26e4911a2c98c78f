//! Batches and the card table: calls that are lent slices.

use super::{entry, Entry, Kind};
use crate::batch::placed;
use crate::{deposit_u64, extract_u64, masks, table, Random};
use std::iter::{repeat_with, successors};

/// What lies between two neighbouring words of a slice: an odd number of many ones and zeros.
const STEP: u64 = 0x9E37_79B9_7F4A_7C15;

/// The words of a slice: the first is the seed, each further one a step above, modulo 2^64.
fn words(seed: u64, count: usize) -> Vec<u64> {
    let next = |word: &u64| Some(word.wrapping_add(STEP));
    successors(Some(seed), next).take(count).collect()
}

/// How many words the buffers of a batch have, and how many batches there are in each direction.
const BUFFER: usize = 16;
const BATCHES: usize = 64;

/// On either side of what fits: how many words the source has, how many the destination has, and the place.
const FITS: [(usize, usize, usize); 14] = [
    (0, 0, 0),
    (0, 0, 1),
    (1, 0, 0),
    (0, 5, 5),
    (0, 5, 6),
    (1, 5, 5),
    (5, 5, 0),
    (6, 5, 0),
    (4, 5, 1),
    (5, 5, 1),
    (16, 16, 0),
    (16, 16, 1),
    (0, 16, usize::MAX),
    (1, 16, usize::MAX),
];

/// A source that fits the destination from a place on, or is a little too long.
fn fit(random: &mut Random) -> (usize, usize, usize) {
    let size = random.below(BUFFER + 1);
    let place = random.below(size + 1);
    let count = random.below(size - place + 3);
    (count.min(BUFFER), size, place)
}

/// The batches of one direction.
fn batches(name: &str, word: fn(u64, u64) -> u64) -> Kind {
    let mut sizes = Random::new(21);
    let mut seeds = Random::new(22);
    let fits = FITS.into_iter().chain(repeat_with(|| fit(&mut sizes)));
    let entries = masks(64)
        .zip(fits)
        .take(BATCHES)
        .map(|(mask, (count, size, place))| {
            let (source, destination) = (seeds.bits(), seeds.bits());
            let mut buffer = words(destination, BUFFER);
            let answer = placed(
                word,
                &words(source, count),
                mask,
                &mut buffer[..size],
                place,
            );
            let arguments = [
                count as u64,
                mask,
                size as u64,
                place as u64,
                source,
                destination,
            ];
            Entry {
                refusal: answer.err().unwrap_or(0),
                words: [&arguments[..], &buffer].concat(),
            }
        });
    Kind {
        name: name.into(),
        entries: entries.collect(),
    }
}

/// How many words the tables have: the fewest, some, and those on either side of the limit.
const LENGTHS: [usize; 6] = [0, 1, 8, 4095, 4096, 4097];

/// A table, as its length and its seed, a card and a mask.
type Field = (usize, u64, usize, u64);

/// Of each table the cards on either side of its end and far from it, each under no mask and under some.
fn fields() -> Vec<Field> {
    let mut seeds = Random::new(23);
    let mut masks = masks(64);
    let mut fields = Vec::new();
    for length in LENGTHS {
        let last = length.saturating_sub(1);
        for card in [0, length / 2, last, length, usize::MAX] {
            let seed = seeds.bits();
            let tried = [0].into_iter().chain(masks.by_ref().take(2));
            fields.extend(tried.map(|mask| (length, seed, card, mask)));
        }
    }
    fields
}

/// Reads of each field.
fn reads() -> Kind {
    let entries = fields().into_iter().map(|(length, seed, card, mask)| {
        let answer = table::read(&words(seed, length), card, mask);
        entry(answer, &[length as u64, seed, card as u64, mask])
    });
    Kind {
        name: "card_read".into(),
        entries: entries.collect(),
    }
}

/// Expected and new numbers for a field: what is there and what is not, numbers that fit under the mask and that do not.
fn numbers(random: &mut Random, (length, seed, card, mask): Field) -> [(u64, u64); 6] {
    let there = table::read(&words(seed, length), card, mask).unwrap_or(0);
    let fits = table::read(&[random.bits()], 0, mask).unwrap_or(0);
    let wide = 1u64.checked_shl(mask.count_ones()).unwrap_or(u64::MAX);
    [
        (there, fits),
        (there, there),
        (there ^ 1, fits),
        (there, wide),
        (wide, fits),
        (there ^ 1, wide),
    ]
}

/// Guarded writes to each field.
fn writes() -> Kind {
    let mut random = Random::new(24);
    let mut entries = Vec::new();
    for field in fields() {
        let (length, seed, card, mask) = field;
        for (expected, new) in numbers(&mut random, field) {
            let mut table = words(seed, length);
            let answer = table::write(&mut table, card, mask, expected, new);
            let after = table.get(card).copied().unwrap_or(0);
            entries.push(Entry {
                refusal: answer.err().unwrap_or(0),
                words: vec![after, length as u64, seed, card as u64, mask, expected, new],
            });
        }
    }
    Kind {
        name: "card_write".into(),
        entries,
    }
}

/// Batches in both directions, reads and guarded writes.
pub fn kinds() -> [Kind; 4] {
    [
        batches("gather_batch", extract_u64),
        batches("scatter_batch", deposit_u64),
        reads(),
        writes(),
    ]
}
