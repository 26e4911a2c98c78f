//! The judge of the differential runs: Rust's own code as given, and the inputs that the runs try.
//!
//! Each form gives Rust's number, or `None` where Rust panics or, in a release build, wraps.
#![warn(missing_docs)]

// The files under core/ name `crate::hint` and `crate::num`.
use core::hint;

pub mod batch;
mod counter;
mod inputs;
pub mod lists;
mod masks;
mod num;
mod program;
pub mod record;
mod signed;
pub mod table;

pub use counter::Counter;
pub use inputs::{boundaries, pairs, powers_of_ten, values, Random};
pub use masks::{masks, runs};
pub use num::{deposit_u16, deposit_u32, deposit_u64, deposit_u8};
pub use num::{extract_u16, extract_u32, extract_u64, extract_u8};
pub use num::{ilog10_i16, ilog10_i32, ilog10_i64, ilog10_i8};
pub use num::{ilog10_u16, ilog10_u32, ilog10_u64, ilog10_u8};
pub use num::{isqrt_i16, isqrt_i32, isqrt_i64, isqrt_i8};
pub use num::{isqrt_u16, isqrt_u32, isqrt_u64, isqrt_u8};
pub use program::program;
pub use signed::{Given, Signed};
