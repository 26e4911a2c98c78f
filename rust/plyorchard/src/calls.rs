//! The thin calls of the number kernels: one macro for a form that can be refused, one for a form that cannot.

use crate::Refusal;

/// What the two C functions of a form say: the refusal's number or 0, and the value or 0.
#[derive(Clone, Copy, Debug, PartialEq, Eq)]
pub struct Answer<T> {
    /// The refusal's number, or 0.
    pub refusal: u8,
    /// The value, or 0 where the form is refused.
    pub value: T,
}

impl<T> Answer<T> {
    /// The value, or why there is none.
    pub fn result(self) -> Result<T, Refusal> {
        Refusal::accepted(self.refusal).map(|()| self.value)
    }
}

/// A function that asks both C functions of a form: `ply_FORM_TYPE_refusal` and `ply_FORM_TYPE_value`.
macro_rules! refusable {
    ($form:ident($($operand:ident),+): $int:ident -> $value:ident) => {
        #[inline]
        fn $form($($operand: $int),+) -> $crate::Answer<$value> {
            extern "C" {
                #[link_name = concat!("ply_", stringify!($form), "_", stringify!($int), "_refusal")]
                fn refusal($($operand: $int),+) -> u8;
                #[link_name = concat!("ply_", stringify!($form), "_", stringify!($int), "_value")]
                fn value($($operand: $int),+) -> $value;
            }
            // SAFETY: the archive has both functions with these types, and they are proved to end and to be safe on every input.
            unsafe { $crate::Answer { refusal: refusal($($operand),+), value: value($($operand),+) } }
        }
    };
}

/// A function that asks the one C function of a form that is never refused: `ply_FORM_TYPE`.
macro_rules! direct {
    ($form:ident($($operand:ident),+): $int:ident -> $value:ident) => {
        #[inline]
        fn $form($($operand: $int),+) -> $value {
            extern "C" {
                #[link_name = concat!("ply_", stringify!($form), "_", stringify!($int))]
                fn value($($operand: $int),+) -> $value;
            }
            // SAFETY: the archive has the function with these types, and it is proved to end and to be safe on every input.
            unsafe { value($($operand),+) }
        }
    };
}

pub(crate) use {direct, refusable};
