//! Where the forms differ from Rust's: on every input of 8 bits, we refuse exactly where Rust panics or wraps.

use oracle::Given;
use std::panic::{catch_unwind, set_hook, take_hook, UnwindSafe};

/// What a call gives, or nothing where it panics.
fn unless_panic<T>(call: impl FnOnce() -> T + UnwindSafe) -> Option<T> {
    catch_unwind(call).ok()
}

/// Whether a number is what is left of the exact next multiple where that does not fit.
fn wrapped(a: i8, d: i8, number: i8) -> bool {
    let exact = Given::next_multiple_of(i32::from(a), i32::from(d));
    i32::from(number) != exact && number == exact as i8
}

/// Notes the input where a form does not refuse exactly where Rust's own panics.
macro_rules! compare {
    ($found:ident, $form:ident, $a:ident $(, $b:ident)?) => {
        if plyorchard::$form($a $(, $b)?).ok() != unless_panic(|| $a.$form($($b)?)) {
            $found.push((stringify!($form), vec![i16::from($a) $(, i16::from($b))?]));
        }
    };
}

/// Every form and input that goes against what docs/DIFFERENCES.md says.
fn unexpected() -> Vec<(&'static str, Vec<i16>)> {
    let mut found = Vec::new();
    for v in u8::MIN..=u8::MAX {
        compare!(found, ilog10, v);
    }
    for a in i8::MIN..=i8::MAX {
        compare!(found, strict_neg, a);
        compare!(found, strict_abs, a);
        compare!(found, ilog10, a);
        compare!(found, isqrt, a);
        for b in i8::MIN..=i8::MAX {
            compare!(found, strict_add, a, b);
            compare!(found, strict_sub, a, b);
            compare!(found, rem_euclid, a, b);
            let ours = plyorchard::next_multiple_of(a, b).ok();
            let rust = unless_panic(|| Given::next_multiple_of(a, b));
            // A release build wraps where the number does not fit, a debug build panics.
            let refused_wrapped = ours.is_none() && rust.is_some_and(|n| wrapped(a, b, n));
            if ours != rust && !refused_wrapped {
                found.push(("next_multiple_of", vec![a.into(), b.into()]));
            }
        }
    }
    found
}

#[test]
fn we_refuse_where_rust_panics_or_wraps() {
    // The panics are expected, so nothing is printed of them.
    let shown = take_hook();
    set_hook(Box::new(|_| {}));
    let found = unexpected();
    set_hook(shown);
    assert_eq!(found, []);
}
