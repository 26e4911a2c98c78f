//! Gather and scatter at 64 bits under masks that are one run of ones, and under masks one bit away from a run, compared
//! with int_bits.rs.

use oracle::{boundaries, deposit_u64, extract_u64, runs, Counter, Random};
use plyorchard::{gather, scatter};
use std::array;

/// Compares both directions under one mask, on each of the words.
fn compare(calls: &mut Counter, mask: u64, words: &[u64]) {
    for &x in words {
        calls.value(("gather", x, mask), gather(x, mask), extract_u64(x, mask));
        calls.value(("scatter", x, mask), scatter(x, mask), deposit_u64(x, mask));
    }
}

#[test]
fn every_run() {
    let mut calls = Counter::new("gather and scatter under every run, u64");
    assert_eq!(runs(64).count(), 2080);
    let words = boundaries(64, 1000);
    runs(64).for_each(|run| compare(&mut calls, run, &words));
}

#[test]
fn one_bit_away_from_every_run() {
    let mut calls = Counter::new("gather and scatter one bit away from every run, u64");
    let mut random = Random::new(8);
    for mask in runs(64).flat_map(|run| (0..64).map(move |place| run ^ 1 << place)) {
        let words: [u64; 16] = array::from_fn(|_| random.word(64));
        compare(&mut calls, mask, &words);
    }
}
