//! Functions as C calls them, of one number or of two, so that one loop calls them all.

/// An integer as the lowest bits of a word.
pub trait Number: Copy + 'static {
    /// The width.
    const BITS: u32;
    /// The number that the lowest bits of a word are.
    fn from_word(word: u64) -> Self;
    /// The word with this number's bits, its sign repeated above.
    fn word(self) -> u64;
}

macro_rules! numbers {
    ($($int:ident)+) => {$(
        impl Number for $int {
            const BITS: u32 = $int::BITS;

            #[inline(always)]
            fn from_word(word: u64) -> $int {
                word as $int
            }

            #[inline(always)]
            fn word(self) -> u64 {
                self as u64
            }
        }
    )+};
}

numbers!(u8 u16 u32 u64 i8 i16 i32 i64);

/// A C function of numbers that is safe to call on all of them.
pub trait Function: Copy + 'static {
    /// The width of what it takes.
    const BITS: u32;
    /// The function of this type that only returns.
    fn nothing() -> Self;
    /// Calls it on a word or on two.
    fn call(self, a: u64, b: u64) -> u64;
}

impl<T: Number, R: Number> Function for unsafe extern "C" fn(T) -> R {
    const BITS: u32 = T::BITS;

    fn nothing() -> Self {
        extern "C" fn nothing<T, R: Number>(_: T) -> R {
            R::from_word(0)
        }
        nothing::<T, R>
    }

    #[inline(always)]
    fn call(self, a: u64, _: u64) -> u64 {
        // SAFETY: the rows name no function that is not safe on every number.
        unsafe { self(T::from_word(a)).word() }
    }
}

impl<T: Number, R: Number> Function for unsafe extern "C" fn(T, T) -> R {
    const BITS: u32 = T::BITS;

    fn nothing() -> Self {
        extern "C" fn nothing<T, R: Number>(_: T, _: T) -> R {
            R::from_word(0)
        }
        nothing::<T, R>
    }

    #[inline(always)]
    fn call(self, a: u64, b: u64) -> u64 {
        // SAFETY: as above.
        unsafe { self(T::from_word(a), T::from_word(b)).word() }
    }
}
