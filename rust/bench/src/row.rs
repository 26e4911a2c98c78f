//! A row of a table: a proved function, what stands beside it, and the rounds of calls that are measured.

use crate::function::Function;
use oracle::Random;
use std::hint::black_box;

/// A round makes its calls and gives the sum of the numbers.
pub type Round = Box<dyn Fn() -> u64>;

/// The rounds of a row over so many calls.
pub struct Rounds {
    /// Of the proved function.
    pub ours: Round,
    /// Of what it is compared with.
    pub beside: Round,
    /// Of neither: what a round costs by itself.
    pub neither: Round,
}

/// A name, and how its rounds are made for so many calls.
pub struct Row {
    pub name: &'static str,
    pub rounds: Box<dyn Fn(usize) -> Rounds>,
}

impl Row {
    /// The row of two functions of numbers, and where a second operand comes from if they take one.
    pub fn of<F: Function, I: Iterator<Item = u64> + 'static>(
        name: &'static str,
        [ours, beside]: [F; 2],
        seconds: fn(u32) -> I,
    ) -> Row {
        let rounds = move |calls| {
            let pairs = words(F::BITS).zip(seconds(F::BITS));
            let inputs: Vec<_> = pairs.take(calls).collect();
            let round = |function: F| -> Round {
                let inputs = inputs.clone();
                Box::new(move || drive(black_box(function), &inputs))
            };
            Rounds {
                ours: round(ours),
                beside: round(beside),
                neither: round(F::nothing()),
            }
        };
        Row {
            name,
            rounds: Box::new(rounds),
        }
    }
}

/// First operands of this width, without end.
pub fn words(width: u32) -> impl Iterator<Item = u64> {
    random_words(5, width)
}

/// Second operands of this width, without end.
pub fn operands(width: u32) -> impl Iterator<Item = u64> {
    random_words(6, width)
}

fn random_words(seed: u64, width: u32) -> impl Iterator<Item = u64> {
    let mut random = Random::new(seed);
    std::iter::repeat_with(move || random.word(width))
}

/// The one loop of all rounds of a row: it does not know the function that it calls.
#[inline(never)]
fn drive<F: Function>(function: F, inputs: &[(u64, u64)]) -> u64 {
    let numbers = inputs.iter().map(|&(a, b)| function.call(a, b));
    numbers.fold(0, u64::wrapping_add)
}
