//! The forms of int_macros.rs: those of the Rust at hand where they are stable, else the body as given.

/// A signed integer with each form as Rust has it.
///
/// `None` stands where Rust panics; for the next multiple also where a release build wraps.
pub trait Signed: Copy {
    /// The unsigned integer of the same width.
    type Unsigned;
    /// The width.
    const BITS: u32;

    /// The number whose two's complement bits are the lowest of this word.
    fn from_word(word: u64) -> Self;

    /// `a.strict_add(b)`
    fn strict_add(a: Self, b: Self) -> Option<Self>;
    /// `a.strict_sub(b)`
    fn strict_sub(a: Self, b: Self) -> Option<Self>;
    /// `a.strict_neg()`
    fn strict_neg(a: Self) -> Option<Self>;
    /// `a.strict_abs()`
    fn strict_abs(a: Self) -> Option<Self>;
    /// `a.rem_euclid(d)`
    fn rem_euclid(a: Self, d: Self) -> Option<Self>;
    /// `a.next_multiple_of(d)`
    fn next_multiple_of(a: Self, d: Self) -> Option<Self>;
    /// `a.wrapping_add(b)`
    fn wrapping_add(a: Self, b: Self) -> Self;
    /// `a.wrapping_sub(b)`
    fn wrapping_sub(a: Self, b: Self) -> Self;
    /// `a.wrapping_neg()`
    fn wrapping_neg(a: Self) -> Self;
    /// `a.unsigned_abs()`
    fn unsigned_abs(a: Self) -> Self::Unsigned;
}

/// The forms of int_macros.rs that are not stable, with their bodies as given.
pub trait Given: Sized {
    /// The next multiple; where it does not fit, a debug build panics and a release build wraps.
    fn next_multiple_of(self, rhs: Self) -> Self;
    /// The next multiple, or `None` where the divisor is 0 or the number does not fit.
    fn checked_next_multiple_of(self, rhs: Self) -> Option<Self>;
}

macro_rules! try_opt {
    ($e:expr) => {
        match $e {
            Some(x) => x,
            None => return None,
        }
    };
}

macro_rules! signed {
    ($($int:ident, $unsigned:ident;)+) => {$(
        #[rustfmt::skip]
        impl Given for $int {
            #[inline]
            fn next_multiple_of(self, rhs: Self) -> Self {
                // This would otherwise fail when calculating `r` when self == T::MIN.
                if rhs == -1 {
                    return self;
                }

                let r = self % rhs;
                let m = if (r > 0 && rhs < 0) || (r < 0 && rhs > 0) {
                    r + rhs
                } else {
                    r
                };

                if m == 0 {
                    self
                } else {
                    self + (rhs - m)
                }
            }

            #[inline]
            fn checked_next_multiple_of(self, rhs: Self) -> Option<Self> {
                // This would otherwise fail when calculating `r` when self == T::MIN.
                if rhs == -1 {
                    return Some(self);
                }

                let r = try_opt!(self.checked_rem(rhs));
                let m = if (r > 0 && rhs < 0) || (r < 0 && rhs > 0) {
                    // r + rhs cannot overflow because they have opposite signs
                    r + rhs
                } else {
                    r
                };

                if m == 0 {
                    Some(self)
                } else {
                    // rhs - m cannot overflow because m has the same sign as rhs
                    self.checked_add(rhs - m)
                }
            }
        }

        // The checked form says where there is a number, and the form itself gives it.
        impl Signed for $int {
            type Unsigned = $unsigned;
            const BITS: u32 = $int::BITS;

            fn from_word(word: u64) -> Self {
                word as $int
            }

            fn strict_add(a: Self, b: Self) -> Option<Self> {
                a.checked_add(b).map(|_| a.strict_add(b))
            }
            fn strict_sub(a: Self, b: Self) -> Option<Self> {
                a.checked_sub(b).map(|_| a.strict_sub(b))
            }
            fn strict_neg(a: Self) -> Option<Self> {
                a.checked_neg().map(|_| a.strict_neg())
            }
            fn strict_abs(a: Self) -> Option<Self> {
                a.checked_abs().map(|_| a.strict_abs())
            }
            fn rem_euclid(a: Self, d: Self) -> Option<Self> {
                a.checked_rem_euclid(d).map(|_| a.rem_euclid(d))
            }
            fn next_multiple_of(a: Self, d: Self) -> Option<Self> {
                Given::checked_next_multiple_of(a, d).map(|_| Given::next_multiple_of(a, d))
            }
            fn wrapping_add(a: Self, b: Self) -> Self {
                a.wrapping_add(b)
            }
            fn wrapping_sub(a: Self, b: Self) -> Self {
                a.wrapping_sub(b)
            }
            fn wrapping_neg(a: Self) -> Self {
                a.wrapping_neg()
            }
            fn unsigned_abs(a: Self) -> Self::Unsigned {
                a.unsigned_abs()
            }
        }
    )+};
}

signed! {
    i8, u8;
    i16, u16;
    i32, u32;
    i64, u64;
}
