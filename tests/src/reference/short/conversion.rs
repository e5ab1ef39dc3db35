//! A number of one format in another, in machine words.

use super::ldexp::scaled;
use super::split;
use crate::answer::Answer;
use crate::reference::{Class, Format};

pub fn converted(from: &Format, to: &Format, x: u64) -> Answer {
    // The sign bits stand at the top of their patterns, and so do the top bits of the fractions.
    let sign = (x & from.sign_bit()) >> (from.width() - 1) << (to.width() - 1);
    match from.classify(x) {
        Class::Nan => {
            let fraction = from.fraction(x) << (63 - from.fraction_bits);
            let payload = fraction >> (63 - to.fraction_bits);
            Answer::word(sign | to.default_nan() | payload)
        }
        Class::Infinite => Answer::word(sign | to.infinity()),
        Class::Zero => Answer::word(sign),
        Class::Subnormal | Class::Normal => {
            let (significand, exponent) = split(from, x);
            let in_ones = exponent as i64 - from.one_log2() as i64;
            let result = scaled(to, significand, in_ones, to.one_log2() as i64);
            let refusal = if result == to.infinity() { 3 } else { 0 };
            Answer::refused(refusal, sign | result)
        }
    }
}
