//! The rows of the batches: one call for all words, beside a call of the single function for each.

use crate::row::{words, Round, Rounds, Row};
use plyorchard::{gather, gather_batch, scatter, scatter_batch, Refusal};
use std::cell::RefCell;
use std::hint::black_box;

/// A mask with ones in groups, as fields of a card have them.
const MASK: u64 = 0x00FF_0F00_3C00_FFF0;

type Batch = fn(&[u64], u64, &mut [u64], usize) -> Result<(), Refusal>;

pub fn rows() -> Vec<Row> {
    vec![
        row("ply_gather_batch", gather_batch, gather),
        row("ply_scatter_batch", scatter_batch, scatter),
    ]
}

fn row(name: &'static str, batch: Batch, single: fn(u64, u64) -> u64) -> Row {
    let all = move |source: &[u64], destination: &mut [u64]| {
        batch(source, MASK, destination, 0).expect("the destination has room");
    };
    let each = move |source: &[u64], destination: &mut [u64]| {
        let single = black_box(single);
        for (word, place) in source.iter().zip(destination) {
            *place = single(*word, MASK);
        }
    };
    let rounds = move |calls| Rounds {
        ours: round(calls, all),
        beside: round(calls, each),
        neither: round(calls, |_, _| ()),
    };
    Row {
        name,
        rounds: Box::new(rounds),
    }
}

/// A round that fills a destination from a source, and gives the sum of the destination's words.
fn round(size: usize, fill: impl Fn(&[u64], &mut [u64]) + 'static) -> Round {
    let source: Vec<u64> = words(u64::BITS).take(size).collect();
    let destination = RefCell::new(vec![0; size]);
    Box::new(move || {
        let mut destination = destination.borrow_mut();
        fill(&source, &mut destination);
        destination.iter().copied().fold(0, u64::wrapping_add)
    })
}
