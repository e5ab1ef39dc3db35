//! A number of one format in another: import and export of halves, W-201.

use super::format::{Class, Format};
use super::ldexp::nearest;
use super::overflow::finite_or_refused;
use crate::answer::Answer;

/// x, a pattern of `from`, as a pattern of `to`: rounded once, halves to even. A zero result has
/// x's sign, and too small is not refused. To a format that has every number of `from`, it is
/// exact.
///
/// Special cases are:
/// - ±0 gives ±0
/// - ±Inf gives ±Inf
/// - NaN gives a NaN with its sign and its top payload bits, quieted; further bits are zero
///
/// Refuses 3 where x is finite and the rounded result infinite: infinity of x's sign.
pub fn converted(from: &Format, to: &Format, x: u64) -> Answer {
    let sign = if from.is_negative(x) {
        to.sign_bit()
    } else {
        0
    };
    match from.classify(x) {
        Class::Nan => {
            let payload = top_bits(from.fraction(x), from.fraction_bits, to.fraction_bits);
            Answer::word(to.quieted(sign | to.infinity() | payload))
        }
        Class::Infinite => Answer::word(sign | to.infinity()),
        Class::Zero => Answer::word(sign),
        Class::Subnormal | Class::Normal => {
            // 1.0 is a power of two in units of either format: between these powers lies the number
            // of times that a unit of the one is a unit of the other.
            let finer = to.one_log2().saturating_sub(from.one_log2());
            let coarser = from.one_log2().saturating_sub(to.one_log2());
            let units = &from.magnitude(x) << finer;
            finite_or_refused(to, sign, &nearest(to, &units, coarser))
        }
    }
}

/// The top bits of a field of so many bits, at the top of a field of another size: what does not
/// fit is left out, what is not there is zero.
fn top_bits(field: u64, bits: u32, other_bits: u32) -> u64 {
    ((field as u128) << other_bits >> bits) as u64
}
