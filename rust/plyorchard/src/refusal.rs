//! Why a call is refused: one list for the whole crate.

use std::error::Error;
use std::fmt::{Display, Formatter, Result as Written};

/// Each refusal's name, number and meaning, said once.
macro_rules! refusals {
    ($($name:ident = $number:literal, $meaning:literal;)+) => {
        /// Why a call is refused. A refused call has the value 0.
        ///
        /// ```
        /// use plyorchard::{rem_euclid, Refusal};
        ///
        /// let refusal = rem_euclid(5i8, 0).unwrap_err();
        /// assert_eq!(refusal, Refusal::DivisorZero);
        /// assert_eq!(refusal.number(), 3);
        /// assert_eq!(refusal.to_string(), "refusal 3: divisor 0");
        /// ```
        #[derive(Clone, Copy, Debug, PartialEq, Eq, Hash)]
        #[non_exhaustive]
        #[repr(u8)]
        pub enum Refusal {
            $(
                #[doc = concat!("Refusal ", $number, ": ", $meaning, ".")]
                $name = $number,
            )+
        }

        impl Refusal {
            /// The refusal that has this number.
            ///
            /// ```
            /// use plyorchard::Refusal;
            ///
            /// assert_eq!(Refusal::from_number(9), Some(Refusal::Differs));
            /// assert_eq!(Refusal::from_number(0), None);
            /// ```
            pub const fn from_number(number: u8) -> Option<Refusal> {
                match number {
                    $($number => Some(Refusal::$name),)+
                    _ => None,
                }
            }

            /// What the refusal means, in words.
            const fn meaning(self) -> &'static str {
                match self {
                    $(Refusal::$name => $meaning,)+
                }
            }
        }
    };
}

refusals! {
    NegativeRoot = 1, "root of a negative number";
    NoLog = 2, "log or digit count of a number that is not above 0";
    DivisorZero = 3, "divisor 0";
    NoFit = 4, "the exact result does not fit, or remainder of MIN by -1";
    TableTooLong = 5, "card table longer than 4,096 words";
    NoSuchCard = 6, "card index not below the table's length";
    EmptyMask = 7, "table mask is 0";
    TooWide = 8, "expected or new number has more bits than the mask has ones";
    Differs = 9, "the gathered field differs from the expected number";
    NoRoom = 10, "batch does not fit its destination";
    NoOperation = 11, "record: operation not listed, or a width it does not take";
    BadOperand = 12, "record: operand has bits above its width, or an unused operand is not 0";
    WrongLength = 13, "record or answer of wrong length";
}

impl Refusal {
    /// The refusal's number, as the C functions and the answers of records have it.
    pub const fn number(self) -> u8 {
        self as u8
    }

    /// Reads what a C function returned: 0 is accepted.
    ///
    /// # Panics
    ///
    /// On a number that no refusal has; the C functions are proved to return none.
    pub(crate) fn accepted(returned: u8) -> Result<(), Refusal> {
        match returned {
            0 => Ok(()),
            number => {
                Err(Refusal::from_number(number)
                    .expect("a number that is proved to be a refusal's"))
            }
        }
    }
}

impl Display for Refusal {
    fn fmt(&self, out: &mut Formatter<'_>) -> Written {
        write!(out, "refusal {}: {}", self.number(), self.meaning())
    }
}

impl Error for Refusal {}

#[cfg(test)]
mod tests {
    use super::Refusal;

    #[test]
    fn numbers_go_from_1_to_13_and_back() {
        for number in 0..=u8::MAX {
            let listed = (1..=13).contains(&number);
            assert_eq!(
                Refusal::from_number(number).map(Refusal::number),
                listed.then_some(number)
            );
        }
    }
}
