//! The masks of the runs of gather and scatter. The seed is fixed, so that every run is the same.

use crate::Random;

/// All bits of this width.
fn full(width: u32) -> u64 {
    u64::MAX >> (64 - width)
}

/// Each mask of this width whose ones are a single run.
pub fn runs(width: u32) -> impl Iterator<Item = u64> + Clone {
    (1..=width).flat_map(move |ones| (0..=width - ones).map(move |place| full(ones) << place))
}

/// No ones, all ones, and ones and zeros in turn by groups of 1, 2, 4 and so on.
fn regular(width: u32) -> impl Iterator<Item = u64> + Clone {
    let groups = (0..width.ilog2()).map(move |k| full(width) / ((1 << (1 << k)) + 1));
    [0].into_iter()
        .chain(groups)
        .flat_map(move |mask| [mask, full(width) ^ mask])
}

/// A mask of one to four ones.
fn few(random: &mut Random, width: u32) -> u64 {
    let ones = 1 + random.bits() % 4;
    (0..ones).fold(0, |mask, _| mask | 1 << (random.bits() % u64::from(width)))
}

/// Masks of this width without end: in turn a regular one, a single run, one of few ones, one of few zeros, a random one.
pub fn masks(width: u32) -> impl Iterator<Item = u64> {
    let mut random = Random::new(3);
    let mut regular = regular(width).cycle();
    let mut runs = runs(width).cycle();
    (0..5).cycle().filter_map(move |kind| match kind {
        0 => regular.next(),
        1 => runs.next(),
        2 => Some(few(&mut random, width)),
        3 => Some(full(width) ^ few(&mut random, width)),
        _ => Some(random.bits() & full(width)),
    })
}

#[cfg(test)]
mod tests {
    use super::*;
    use std::collections::BTreeSet;

    #[test]
    fn masks_of_every_kind_are_tried() {
        for width in [16, 32, 64] {
            let tried: BTreeSet<u64> = masks(width).take(1 << 20).collect();
            assert!(tried.iter().all(|mask| mask & !full(width) == 0));
            assert_eq!(runs(width).count() as u32, width * (width + 1) / 2);
            assert!(runs(width).all(|run| tried.contains(&run)));
            let alternating = 0x5555_5555_5555_5555 & full(width);
            for mask in [0, full(width), alternating, full(width) ^ alternating] {
                assert!(tried.contains(&mask), "{mask:#x} at {width} bits");
            }
            for ones in [1, 2, width / 2, width - 2, width - 1] {
                assert!(tried.iter().any(|mask| mask.count_ones() == ones));
            }
        }
    }
}
