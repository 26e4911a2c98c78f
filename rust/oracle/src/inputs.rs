//! The inputs of the differential runs. Seeds are fixed, so that every run is the same.

use std::collections::BTreeSet;

/// How many boundary values a run tries, and how many random inputs.
const BOUNDARIES: usize = 600;
const RANDOMS: usize = 1 << 20;

/// Random words, by splitmix64.
pub struct Random(u64);

impl Random {
    /// The generator that starts from this seed.
    pub fn new(seed: u64) -> Random {
        Random(seed)
    }

    /// The next 64 random bits.
    pub fn bits(&mut self) -> u64 {
        self.0 = self.0.wrapping_add(0x9E37_79B9_7F4A_7C15);
        let z = (self.0 ^ (self.0 >> 30)).wrapping_mul(0xBF58_476D_1CE4_E5B9);
        let z = (z ^ (z >> 27)).wrapping_mul(0x94D0_49BB_1331_11EB);
        z ^ (z >> 31)
    }

    /// A random number below this one.
    pub fn below(&mut self, limit: usize) -> usize {
        (self.bits() % limit as u64) as usize
    }

    /// One of these, each as likely.
    pub fn pick<T: Copy>(&mut self, from: &[T]) -> T {
        from[self.below(from.len())]
    }

    /// A word of this width: half the time any, else one that is near 0 as a signed number, each length as likely.
    pub fn word(&mut self, width: u32) -> u64 {
        let shift = (self.bits() % u64::from(2 * width)) as u32;
        let near = if shift < width { shift } else { 0 };
        low((self.bits() as i64 >> (64 - width) >> near) as u64, width)
    }
}

/// The lowest bits of a word, as many as the width.
pub(crate) fn low(word: u64, width: u32) -> u64 {
    word & (u64::MAX >> (64 - width))
}

/// Distinct words of this width: 0, 1 and 2, each power of two with its neighbours, the extremes, the negatives of all
/// these, and random ones up to the count.
pub fn boundaries(width: u32, count: usize) -> Vec<u64> {
    let powers = (0..width).map(|k| 1u64 << k);
    let edges = powers
        .flat_map(|p| [p - 1, p, p + 1])
        .chain([(1 << (width - 1)) - 2]);
    let mut words: BTreeSet<u64> = edges
        .flat_map(|e| [low(e, width), low(e.wrapping_neg(), width)])
        .collect();
    let mut random = Random::new(u64::from(width));
    while words.len() < count {
        words.insert(random.word(width));
    }
    words.into_iter().collect()
}

/// The inputs of a form of one operand: every word up to 16 bits, else the boundary values and random ones.
pub fn values(width: u32) -> impl Iterator<Item = u64> {
    let (every, some, randoms) = match width {
        0..=16 => (1 << width, Vec::new(), 0),
        _ => (0, boundaries(width, BOUNDARIES), RANDOMS),
    };
    let mut random = Random::new(1);
    (0..every)
        .chain(some)
        .chain((0..randoms).map(move |_| random.word(width)))
}

/// Each power of ten that fits in the width, with its neighbours.
pub fn powers_of_ten(width: u32) -> impl Iterator<Item = u64> {
    let powers = (0..).map_while(|k| 10u64.checked_pow(k));
    powers
        .take_while(move |&p| low(p, width) == p)
        .flat_map(|p| [p - 1, p, p + 1])
}

/// The inputs of a form of two operands: every pair at 8 bits, else every pair of boundary values and random pairs.
pub fn pairs(width: u32) -> impl Iterator<Item = (u64, u64)> {
    let (words, randoms) = match width {
        0..=8 => ((0..1 << width).collect(), 0),
        _ => (boundaries(width, BOUNDARIES), RANDOMS),
    };
    let mut random = Random::new(2);
    let firsts = words.clone();
    let both = firsts
        .into_iter()
        .flat_map(move |a| words.clone().into_iter().map(move |b| (a, b)));
    both.chain((0..randoms).map(move |_| (random.word(width), random.word(width))))
}

#[cfg(test)]
mod tests {
    use super::*;

    #[test]
    fn boundaries_are_distinct_and_hold_the_extremes_and_their_neighbours() {
        for width in [16, 32, 64] {
            let words = boundaries(width, BOUNDARIES);
            assert_eq!(words.len(), BOUNDARIES);
            let least = i64::MIN >> (64 - width);
            let most = i64::MAX >> (64 - width);
            for edge in [
                0,
                1,
                2,
                -1,
                -2,
                least,
                least + 1,
                most,
                most - 1,
                1 << (width / 2),
            ] {
                assert!(
                    words.contains(&low(edge as u64, width)),
                    "{edge} at {width} bits"
                );
            }
        }
    }

    #[test]
    fn powers_of_ten_end_with_the_greatest_that_fits() {
        let greatest = [
            (8, 100),
            (16, 10_000),
            (32, 1_000_000_000),
            (64, 10_000_000_000_000_000_000),
        ];
        for (width, power) in greatest {
            assert_eq!(powers_of_ten(width).max(), Some(power + 1));
        }
    }
}
