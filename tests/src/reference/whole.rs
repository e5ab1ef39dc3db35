//! Whole numbers of 64 bits: their sums, and the doubles that they are; and which doubles are
//! integers, of any size.

use super::format::{Class, Format};
use super::natural::Natural;
use crate::answer::Answer;

/// The largest magnitude that is turned into a double: up to it, every whole number is one.
const LARGEST_MAGNITUDE: u64 = 1 << 53;

/// a + b. Refuses 3 where the sum is not a signed number of 64 bits: 0.
pub fn sum(a: i64, b: i64) -> Answer {
    in_64_bits(a as i128 + b as i128)
}

/// a - b. Refuses 3 where the difference is not a signed number of 64 bits: 0.
pub fn difference(a: i64, b: i64) -> Answer {
    in_64_bits(a as i128 - b as i128)
}

fn in_64_bits(exact: i128) -> Answer {
    i64::try_from(exact).map_or(Answer::refused(3, 0), Answer::whole)
}

/// The double that is the whole number a; +0 for 0. Refuses 3 where the magnitude is over 2^53: 0.
pub fn to_double(format: &Format, a: i64) -> Answer {
    let magnitude = a.unsigned_abs();
    if magnitude > LARGEST_MAGNITUDE {
        return Answer::refused(3, 0);
    }
    let sign = if a < 0 { format.sign_bit() } else { 0 };
    let units = &Natural::from(magnitude) << format.one_log2();
    Answer::word(sign | format.encode(&units))
}

/// Whether x is finite and an integer: so many ones, in units, and no rest.
///
/// Special cases are:
/// - zeros are integers
/// - infinities and NaNs are not
pub fn is_finite_and_integral(format: &Format, x: u64) -> bool {
    match format.classify(x) {
        Class::Nan | Class::Infinite => false,
        Class::Zero | Class::Subnormal | Class::Normal => {
            let (_, rest) = format.magnitude(x).div_rem_power_of_two(format.one_log2());
            rest.is_zero()
        }
    }
}
