//! Sums, differences and products, request W-208: the exact number first, then rounded once, halves
//! to even.

use super::format::{Class, Format};
use super::ldexp::nearest;
use super::natural::Natural;
use super::overflow::finite_or_refused;
use crate::answer::Answer;
use std::cmp::Ordering;

/// x + y. A zero is +0, but for -0 + -0, which is -0.
///
/// Refuses 2 where an operand is not finite: default NaN. Refuses 3 where the rounded sum is infinite:
/// infinity of the sum's sign.
pub fn sum(format: &Format, x: u64, y: u64) -> Answer {
    without_arithmetic(format, x, y).unwrap_or_else(|| {
        let [a, b] = [x, y].map(|x| format.magnitude(x));
        let [x_sign, y_sign] = [x, y].map(|x| x & format.sign_bit());
        let (sign, exact) = match a.cmp(&b) {
            _ if x_sign == y_sign => (x_sign, &a + &b),
            Ordering::Greater => (x_sign, &a - &b),
            Ordering::Less => (y_sign, &b - &a),
            Ordering::Equal => (0, Natural::from(0)),
        };
        finite_or_refused(format, sign, &nearest(format, &exact, 0))
    })
}

/// x - y, which is x + -y: a zero is +0, but for -0 - +0, which is -0. Refuses as `sum` does.
pub fn difference(format: &Format, x: u64, y: u64) -> Answer {
    sum(format, x, format.negate(y))
}

/// x·y. Its sign, a zero's too, is that of the operands where these are the same, and else minus's.
/// Refuses as `sum` does.
pub fn product(format: &Format, x: u64, y: u64) -> Answer {
    without_arithmetic(format, x, y).unwrap_or_else(|| {
        let sign = (x & format.sign_bit()) ^ (y & format.sign_bit());
        // A unit is 2^-d, where 1.0 counts 2^d units, so a·b counts 2^d times as many as the product.
        let exact = &format.magnitude(x) * &format.magnitude(y);
        let rounded = nearest(format, &exact, format.one_log2());
        finite_or_refused(format, sign, &rounded)
    })
}

/// What there is where not both operands are finite.
fn without_arithmetic(format: &Format, x: u64, y: u64) -> Option<Answer> {
    let is_finite = |x| !matches!(format.classify(x), Class::Nan | Class::Infinite);
    match is_finite(x) && is_finite(y) {
        true => None,
        false => Some(Answer::refused(2, format.default_nan())),
    }
}
