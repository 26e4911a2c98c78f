//! Gather and scatter through the C functions, compared with int_bits.rs at each width.

use oracle::{deposit_u16, deposit_u32, deposit_u64, deposit_u8};
use oracle::{extract_u16, extract_u32, extract_u64, extract_u8};
use oracle::{masks, pairs, Counter, Random};
use plyorchard::{gather, scatter};

/// Words with masks: every pair at 8 bits, else 2^20 pairs over masks of every kind.
fn inputs(width: u32) -> Box<dyn Iterator<Item = (u64, u64)>> {
    if width == 8 {
        return Box::new(pairs(width));
    }
    let mut random = Random::new(4);
    let masks = masks(width).take(1 << 20);
    Box::new(masks.map(move |mask| (random.word(width), mask)))
}

macro_rules! run {
    ($($uint:ident $extract:ident $deposit:ident;)+) => {$(
        #[test]
        fn $uint() {
            let mut calls = Counter::new(concat!("gather and scatter, ", stringify!($uint)));
            for (x, mask) in inputs($uint::BITS) {
                let (x, mask) = (x as $uint, mask as $uint);
                calls.value(("gather", x, mask), gather(x, mask), $extract(x, mask));
                calls.value(("scatter", x, mask), scatter(x, mask), $deposit(x, mask));
            }
        }
    )+};
}

run! {
    u8 extract_u8 deposit_u8;
    u16 extract_u16 deposit_u16;
    u32 extract_u32 deposit_u32;
    u64 extract_u64 deposit_u64;
}
