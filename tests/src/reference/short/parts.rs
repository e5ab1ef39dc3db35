//! modf and frexp in machine words.

use super::{pack, size, split};
use crate::answer::Answer;
use crate::reference::{Class, Format};

pub fn modf(format: &Format, x: u64) -> Answer {
    let sign = x & format.sign_bit();
    match format.classify(x) {
        Class::Nan => Answer::pair(format.quieted(x), format.quieted(x)),
        Class::Infinite => Answer::pair(x, sign),
        Class::Zero | Class::Subnormal | Class::Normal => {
            let (significand, exponent) = split(format, x);
            let one = format.one_log2();
            if exponent >= one {
                return Answer::pair(x, sign); // a multiple of 1.0 already
            }
            // A significand is below 2^61. From 2^62 on, the quotient stays 0.
            let down = (one - exponent).min(62);
            let quotient = significand >> down;
            let rest = significand - (quotient << down);
            let whole = pack(format, quotient, one);
            Answer::pair(sign | whole, sign | pack(format, rest, exponent))
        }
    }
}

pub fn frexp(format: &Format, x: u64) -> Answer {
    match format.classify(x) {
        Class::Nan => Answer::pair(format.quieted(x), 0),
        Class::Infinite | Class::Zero => Answer::pair(x, 0),
        Class::Subnormal | Class::Normal => {
            let (significand, exponent) = split(format, x);
            let digits = size(significand);
            let normalised = significand << (format.fraction_bits + 1 - digits);
            let half = (format.bias() - 1) << format.fraction_bits;
            let power = (digits + exponent) as i64 - format.one_log2() as i64;
            let sign = x & format.sign_bit();
            Answer::pair(sign | half | format.fraction(normalised), power as u64)
        }
    }
}
