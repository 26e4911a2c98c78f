//! Comparing what the C functions answer with what Rust gives, and counting the calls.

use std::fmt::Debug;

/// A run's name and how many calls it has compared; it says so at its end.
pub struct Counter {
    run: &'static str,
    compared: u64,
    refused: u64,
}

impl Counter {
    /// A run that has compared nothing yet.
    pub fn new(run: &'static str) -> Counter {
        Counter {
            run,
            compared: 0,
            refused: 0,
        }
    }

    /// Compares the answer of a form that is never refused.
    pub fn value<T: PartialEq + Debug>(&mut self, input: impl Debug, ours: T, rust: T) {
        assert_eq!(ours, rust, "{}: {input:?}", self.run);
        self.compared += 1;
    }

    /// Compares a form that can be refused with Rust's number, or with the refusal's number where Rust has none: what
    /// the safe function gives, and the two numbers of the C functions, the refusal or 0 and the value or 0.
    pub fn answer<T>(
        &mut self,
        input: impl Debug,
        safe: Result<T, u8>,
        ours: (u8, T),
        rust: Result<T, u8>,
    ) where
        T: PartialEq + Debug + Default,
    {
        assert_eq!(safe, rust, "{}: {input:?}", self.run);
        self.refused += u64::from(rust.is_err());
        let numbers = rust.map_or_else(|refusal| (refusal, T::default()), |value| (0, value));
        assert_eq!(ours, numbers, "{}: {input:?}", self.run);
        self.compared += 2;
    }

    /// Compares a call that is lent a slice: its answer, and what the slice holds afterwards.
    pub fn lent<W>(
        &mut self,
        input: impl Debug,
        ours: (Result<(), u8>, &[W]),
        model: (Result<(), u8>, &[W]),
    ) where
        W: PartialEq + Debug,
    {
        assert!(
            ours == model,
            "{}: {input:?}: {:?} and not {:?}",
            self.run,
            ours.0,
            model.0
        );
        self.refused += u64::from(model.0.is_err());
        self.compared += 1;
    }
}

impl Drop for Counter {
    fn drop(&mut self) {
        if !std::thread::panicking() {
            assert_ne!(self.compared, 0, "{} has compared nothing", self.run);
            println!(
                "{}: {} calls compared, {} inputs refused",
                self.run, self.compared, self.refused
            );
        }
    }
}
