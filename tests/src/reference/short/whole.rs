//! The double that a whole number is, and which doubles are integers, in machine words.

use super::{pack, split};
use crate::answer::Answer;
use crate::reference::Format;

pub fn to_double(format: &Format, a: i64) -> Answer {
    let magnitude = a.unsigned_abs();
    if magnitude > 1 << 53 {
        return Answer::refused(3, 0);
    }
    let sign = if a < 0 { format.sign_bit() } else { 0 };
    Answer::word(sign | pack(format, magnitude, format.one_log2()))
}

/// A significand with its exponent has as many zeros at its end, in binary, as 1.0 has, or more.
pub fn is_finite_and_integral(format: &Format, x: u64) -> bool {
    if format.exponent_field(x) == format.largest_exponent_field() {
        return false;
    }
    let (significand, exponent) = split(format, x);
    significand == 0 || significand.trailing_zeros() + exponent >= format.one_log2()
}
