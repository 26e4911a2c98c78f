//! Batches through the C functions, compared with int_bits.rs on each word, refused ones among them.

use oracle::{batch::placed, deposit_u64, extract_u64, masks, Counter, Random};
use plyorchard::{gather_batch, scatter_batch, Refusal};

type Batch = fn(&[u64], u64, &mut [u64], usize) -> Result<(), Refusal>;

/// Slices of random lengths and words, and a place from 0 to two past the end.
fn run(name: &'static str, batch: Batch, word: fn(u64, u64) -> u64) {
    let mut random = Random::new(6);
    let mut calls = Counter::new(name);
    let mut words = |count: usize| (0..count).map(|_| random.word(64)).collect::<Vec<u64>>();
    let mut lengths = Random::new(7);
    for mask in masks(64).take(100_000) {
        let source = words(lengths.below(20));
        let destination = words(lengths.below(40));
        let place = lengths.below(destination.len() + 3);
        let (mut ours, mut model) = (destination.clone(), destination.clone());
        let answer = batch(&source, mask, &mut ours, place).map_err(Refusal::number);
        let right = placed(word, &source, mask, &mut model, place);
        calls.lent(
            (&source, mask, &destination, place),
            (answer, &ours),
            (right, &model),
        );
    }
}

#[test]
fn gathers() {
    run("batches of gathers", gather_batch, extract_u64);
}

#[test]
fn scatters() {
    run("batches of scatters", scatter_batch, deposit_u64);
}

#[test]
fn an_empty_source_fits_at_the_end_and_not_past_it() {
    for batch in [gather_batch, scatter_batch] {
        let mut destination = [1, 2, 3];
        assert_eq!(batch(&[], 5, &mut destination, 3), Ok(()));
        assert_eq!(batch(&[], 5, &mut destination, 4), Err(Refusal::NoRoom));
        assert_eq!(
            batch(&[], 5, &mut destination, usize::MAX),
            Err(Refusal::NoRoom)
        );
        assert_eq!(batch(&[9], 5, &mut destination, 3), Err(Refusal::NoRoom));
        assert_eq!(destination, [1, 2, 3]);
        assert_eq!(batch(&[], 5, &mut [], 0), Ok(()));
    }
}
