//! Laws of document 01 and of the requests after it, asked of the library alone, and the language's
//! own operations beside it. A mistake that the reference shared would show here.

mod extremes;
mod fmod;
mod halves;
mod language;
mod ldexp;
mod nextafter;
mod parts;
mod remainder;
mod roundings;

use estrenwind_tests::functions::{Function, Library};
use estrenwind_tests::patterns::{edges, edges_are_all, Random};
use estrenwind_tests::reference::{Class, Format};

fn function(name: &str) -> &'static Function {
    Function::named(name).unwrap_or_else(|| panic!("no function {name}"))
}

fn library(name: &str, format: &Format) -> Library {
    function(name).library(format)
}

/// Edges and random patterns, or all of a narrow format; no NaN among them.
fn numbers(format: &Format) -> Vec<u64> {
    let mut random = Random::new(0x200);
    let mut numbers = edges(format);
    if !edges_are_all(format) {
        numbers.extend((0..2_000_000).map(|_| random.pattern(format)));
    }
    numbers.retain(|&x| format.classify(x) != Class::Nan);
    numbers
}

/// What a function of two operands is tried on, edges and random cases; no NaN among the patterns.
fn cases(name: &str, format: &Format) -> Vec<[u64; 2]> {
    let operands = function(name).operands;
    let mut random = Random::new(0x280);
    let mut cases = operands.edges(format);
    cases.extend((0..2_000_000).map(|_| operands.random(format, &mut random)));
    let is_nan = |x: u64| format.classify(x) == Class::Nan;
    cases.retain(|&[x, y]| !(is_nan(x) || operands.is_two_patterns() && is_nan(y)));
    cases
}

fn is_finite(format: &Format, x: u64) -> bool {
    !matches!(format.classify(x), Class::Nan | Class::Infinite)
}
