//! ldexp in machine words.

use super::{pack, size, split};
use crate::answer::Answer;
use crate::reference::{Class, Format};

pub fn ldexp(format: &Format, x: u64, n: i64) -> Answer {
    match format.classify(x) {
        Class::Nan => Answer::word(format.quieted(x)),
        Class::Infinite | Class::Zero => Answer::word(x),
        Class::Subnormal | Class::Normal => {
            let (significand, exponent) = split(format, x);
            let result = scaled(format, significand, exponent as i64, n);
            let answer = (x & format.sign_bit()) | result;
            if result == format.infinity() {
                Answer::refused(3, answer)
            } else {
                Answer::word(answer)
            }
        }
    }
}

/// The sign-less pattern of significand · 2^(exponent + n) units, rounded.
pub fn scaled(format: &Format, significand: u64, exponent: i64, n: i64) -> u64 {
    let exponent = exponent.saturating_add(n);
    // The place of the leading digit, and of the last that the format can write.
    let leading = exponent.saturating_add(size(significand) as i64 - 1);
    let last = leading.saturating_sub(format.fraction_bits as i64).max(0);
    if leading >= format.infinity_log2() as i64 {
        return format.infinity();
    }
    if exponent >= last {
        return pack(format, significand, exponent as u32);
    }
    // A significand is below 2^61. From 2^62 on, it is less than a half and leaves 0.
    let down = last.saturating_sub(exponent).min(62);
    let quotient = significand >> down;
    let rest = significand - (quotient << down);
    let half = 1 << (down - 1);
    let up = rest > half || rest == half && quotient % 2 == 1;
    pack(format, quotient + up as u64, last as u32)
}
