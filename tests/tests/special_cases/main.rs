//! The special cases that the sources publish, and what document 01 and the requests after it say
//! where they leave a choice.
//!
//! Sources 000, 001, 003 and 004 are about ceil, nearbyint and round. Of the other functions the
//! sources have the C wording alone, source 002; the special cases of C99's annex F, which it
//! points to and document 01 names, are quoted by their numbers there.

mod extremes;
mod fmod;
mod halves;
mod ldexp;
mod nextafter;
mod parts;
mod remainder;
mod roundings;

use estrenwind_tests::answer::Answer;
use estrenwind_tests::functions::{format_of_width, Function};

#[track_caller]
fn check(name: &str, width: u32, [x, y]: [u64; 2], answer: Answer) {
    let format = format_of_width(width).unwrap();
    let function = Function::named(name).unwrap();
    let case = format!("{name} {width} {x:x} {y:x}");
    assert_eq!(function.library(format)(x, y), answer, "library, {case}");
    assert_eq!(
        (function.reference)(format, x, y),
        answer,
        "reference, {case}"
    );
    assert_eq!((function.short)(format, x, y), answer, "short form, {case}");
}
