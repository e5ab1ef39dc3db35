//! The language's own operations on floating-point numbers, on patterns.

use estrenwind_tests::reference::{Format, BINARY32, BINARY64};
use std::cmp::Ordering;

pub struct Language {
    pub sum: fn(u64, u64) -> u64,
    pub product: fn(u64, u64) -> u64,
    pub remainder: fn(u64, u64) -> u64,
    pub at_most: fn(u64, u64) -> bool,
    /// The order of all patterns, in which -0 comes before +0.
    pub order: fn(u64, u64) -> Ordering,
    pub next_up: fn(u64) -> u64,
    pub next_down: fn(u64) -> u64,
}

pub fn language(format: &Format) -> Language {
    match *format {
        BINARY64 => Language {
            sum: |x, y| (f64::from_bits(x) + f64::from_bits(y)).to_bits(),
            product: |x, y| (f64::from_bits(x) * f64::from_bits(y)).to_bits(),
            remainder: |x, y| (f64::from_bits(x) % f64::from_bits(y)).to_bits(),
            at_most: |x, y| f64::from_bits(x) <= f64::from_bits(y),
            order: |x, y| f64::from_bits(x).total_cmp(&f64::from_bits(y)),
            next_up: |x| f64::from_bits(x).next_up().to_bits(),
            next_down: |x| f64::from_bits(x).next_down().to_bits(),
        },
        BINARY32 => Language {
            sum: |x, y| (narrow(x) + narrow(y)).to_bits().into(),
            product: |x, y| (narrow(x) * narrow(y)).to_bits().into(),
            remainder: |x, y| (narrow(x) % narrow(y)).to_bits().into(),
            at_most: |x, y| narrow(x) <= narrow(y),
            order: |x, y| narrow(x).total_cmp(&narrow(y)),
            next_up: |x| narrow(x).next_up().to_bits().into(),
            next_down: |x| narrow(x).next_down().to_bits().into(),
        },
        _ => panic!("the language has no {}-bit numbers", format.width()),
    }
}

fn narrow(x: u64) -> f32 {
    f32::from_bits(x as u32)
}
