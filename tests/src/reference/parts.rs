//! modf and frexp: a number taken apart.

use super::format::{Class, Format};
use crate::answer::Answer;

/// The integer part of x and what is left, each with x's sign.
///
/// Special cases are:
/// - modf(±0) = ±0, ±0
/// - modf(±Inf) = ±Inf, ±0
/// - modf(NaN) = that NaN quieted, twice
pub fn modf(format: &Format, x: u64) -> Answer {
    let sign = x & format.sign_bit();
    match format.classify(x) {
        Class::Nan => Answer::pair(format.quieted(x), format.quieted(x)),
        Class::Infinite => Answer::pair(x, sign),
        Class::Zero | Class::Subnormal | Class::Normal => {
            let one = format.one_log2();
            let (integer, rest) = format.magnitude(x).div_rem_power_of_two(one);
            Answer::pair(
                sign | format.encode(&(&integer << one)),
                sign | format.encode(&rest),
            )
        }
    }
}

/// A fraction of magnitude at least 0.5 and below 1, and the power of two that makes x of it.
///
/// A number of d binary digits is at least 2^(d - 1) units and below 2^d. So 2^-d makes it at least
/// one half and below 1 unit, and the fraction is that part of 1.0.
///
/// Special cases are:
/// - frexp(±0) = ±0, 0
/// - frexp(±Inf) = ±Inf, 0
/// - frexp(NaN) = that NaN quieted, 0
pub fn frexp(format: &Format, x: u64) -> Answer {
    match format.classify(x) {
        Class::Nan => Answer::pair(format.quieted(x), 0),
        Class::Infinite | Class::Zero => Answer::pair(x, 0),
        Class::Subnormal | Class::Normal => {
            let units = format.magnitude(x);
            let (digits, one) = (units.size(), format.one_log2());
            let (fraction, rest) = (&units << one).div_rem_power_of_two(digits);
            assert!(rest.is_zero(), "a fraction of more digits than x");
            let exponent = digits as i64 - one as i64;
            let sign = x & format.sign_bit();
            Answer::pair(sign | format.encode(&fraction), exponent as u64)
        }
    }
}
