//! fmod: the remainder of a division that rounds towards zero.

use super::format::{Class, Format};
use crate::answer::Answer;

/// What a remainder is where no whole numbers are divided: the first NaN quieted, refusal 2 with the
/// default NaN where x is infinite or y is zero, and x where y is infinite. W-204: remainder and
/// remquo answer "as in fmod" and refuse "on the same terms".
pub fn without_division(format: &Format, x: u64, y: u64) -> Option<Answer> {
    if let Some(nan) = format.first_nan(x, y) {
        return Some(Answer::word(format.quieted(nan)));
    }
    match (format.classify(x), format.classify(y)) {
        (Class::Infinite, _) | (_, Class::Zero) => Some(Answer::refused(2, format.default_nan())),
        (_, Class::Infinite) => Some(Answer::word(x)),
        _ => None,
    }
}

/// x - n·y exactly, n an integer, of magnitude below |y| and with x's sign, a zero's included. So
/// the magnitude is what the whole number |x| leaves when divided by |y|.
///
/// Special cases are:
/// - fmod(NaN, y), fmod(x, NaN) = the first NaN, quieted
/// - fmod(x, ±Inf) = x for finite x
///
/// Refuses 2 where x is infinite or y is zero, and neither a NaN: default NaN.
pub fn fmod(format: &Format, x: u64, y: u64) -> Answer {
    without_division(format, x, y).unwrap_or_else(|| {
        let (_, rest) = format.magnitude(x).div_rem(&format.magnitude(y));
        Answer::word((x & format.sign_bit()) | format.encode(&rest))
    })
}
