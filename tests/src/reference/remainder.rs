//! remainder and remquo, request W-204: what is left of x when the nearest multiple of y is taken
//! away, and the last digits of the integer that y is multiplied by.

use super::fmod::without_division;
use super::format::Format;
use super::natural::Natural;
use crate::answer::Answer;
use std::cmp::Ordering;

/// x - n·y exactly, n the integer nearest to x/y, halves to even. A zero has x's sign.
///
/// Special cases are:
/// - remainder(NaN, y), remainder(x, NaN) = the first NaN, quieted
/// - remainder(x, ±Inf) = x for finite x: n is 0
///
/// Refuses 2 where x is infinite or y is zero, and neither a NaN: default NaN.
pub fn remainder(format: &Format, x: u64, y: u64) -> Answer {
    let Answer { refusal, words } = remquo(format, x, y);
    Answer::refused(refusal, words[0])
}

/// The same, and beside it "the sign of x/y on the magnitude of n modulo 8", from -7 to 7. It is 0
/// with a NaN or a refusal.
pub fn remquo(format: &Format, x: u64, y: u64) -> Answer {
    without_division(format, x, y).unwrap_or_else(|| {
        let (n, rest) = nearest_multiple(&format.magnitude(x), &format.magnitude(y));
        let word = match rest {
            Rest::Beyond(units) => (x & format.sign_bit()) | format.encode(&units),
            Rest::Short(units) => (format.negate(x) & format.sign_bit()) | format.encode(&units),
        };
        let (_, last_digits) = n.div_rem_power_of_two(3);
        let magnitude = last_digits.to_u64().expect("below 8") as i64;
        let same_sign = format.is_negative(x) == format.is_negative(y);
        let quotient = if same_sign { magnitude } else { -magnitude };
        Answer::pair(word, quotient as u64)
    })
}

/// How far a number lies from a multiple, both seen from zero.
enum Rest {
    /// Beyond it, or on it.
    Beyond(Natural),
    /// Short of it.
    Short(Natural),
}

/// The integer n nearest to a/b, halves to even, and how far a lies from n·b. Where a = q·b + r, with
/// r below b, n is q or q + 1: a is r beyond the one multiple, and b - r short of the other.
fn nearest_multiple(a: &Natural, b: &Natural) -> (Natural, Rest) {
    let (q, r) = a.div_rem(b);
    let is_above = match (&r * 2).cmp(b) {
        Ordering::Less => false,
        Ordering::Greater => true,
        Ordering::Equal => q.is_odd(),
    };
    match is_above {
        false => (q, Rest::Beyond(r)),
        true => (&q + &Natural::from(1), Rest::Short(b - &r)),
    }
}
