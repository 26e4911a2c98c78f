//! A gift card balance server's proved core, for Rust.
//!
//! Every function here calls a C function of the archive that `tools/build exports` writes. Each of those is proved, on
//! every input, to end, to break no rule of the language and to give the number of its definition. So no call panics and
//! none has to be checked first: what cannot be answered is a [`Refusal`].
//!
//! A function has the name of its C function without the prefix `ply_` and the type. The two of a stream are those of
//! [`Stream`]; [`AnswerWriter`] is all Rust, over it.
//!
//! ```
//! use plyorchard::{next_multiple_of, strict_sub, Refusal};
//!
//! assert_eq!(strict_sub(50i64, 20), Ok(30));
//! assert_eq!(next_multiple_of(23i64, 8), Ok(24));
//! assert_eq!(next_multiple_of(23i64, 0), Err(Refusal::DivisorZero));
//! ```
#![warn(missing_docs)]

mod batch;
mod bits;
mod calls;
mod cards;
mod log;
mod record;
mod refusal;
mod root;
mod signed;
mod stream;

pub use batch::{gather_batch, scatter_batch};
pub use bits::{gather, scatter, Bits};
#[doc(hidden)]
pub use calls::Answer;
#[doc(hidden)]
pub use cards::card_read_answer;
pub use cards::{card_read, card_write};
#[doc(hidden)]
pub use log::digit_count_answer;
pub use log::{digit_count, ilog10, Log10};
pub use record::record;
pub use refusal::Refusal;
pub use root::{isqrt, Root};
pub use signed::{next_multiple_of, rem_euclid, strict_abs, strict_add, strict_neg, strict_sub};
pub use signed::{unsigned_abs, wrapping_add, wrapping_neg, wrapping_sub, Signed};
pub use stream::{AnswerWriter, Stream};

/// Keeps the traits of the kernels to the types that the archive has functions for.
mod sealed {
    pub trait Sealed {}

    macro_rules! sealed {
        ($($int:ident)+) => {
            $(impl Sealed for $int {})+
        };
    }

    sealed!(u8 u16 u32 u64 i8 i16 i32 i64);
}
