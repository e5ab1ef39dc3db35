//! ldexp: a number times a power of two, rounded once.

use super::format::{Class, Format};
use super::natural::Natural;
use super::overflow::finite_or_refused;
use super::rounding::{rule, Position, Rest};
use crate::answer::Answer;

/// x·2^n rounded once, halves to even. A zero result has x's sign, and too small is not refused.
///
/// Special cases are:
/// - ldexp(±0, n) = ±0
/// - ldexp(±Inf, n) = ±Inf
/// - ldexp(NaN, n) = that NaN quieted
///
/// Refuses 3 where x is finite and the rounded result infinite: infinity of x's sign.
pub fn ldexp(format: &Format, x: u64, n: i64) -> Answer {
    match format.classify(x) {
        Class::Nan => Answer::word(format.quieted(x)),
        Class::Infinite | Class::Zero => Answer::word(x),
        Class::Subnormal | Class::Normal => {
            let n = reduced(format, n);
            let units = &format.magnitude(x) << n.max(0) as u32;
            let rounded = nearest(format, &units, (-n).max(0) as u32);
            finite_or_refused(format, x & format.sign_bit(), &rounded)
        }
    }
}

/// An n of few digits with the same answers. A finite number other than zero is at least 1 unit and
/// below 2^d, where 2^d would be infinity. So all n from d on reach infinity, and all n from -d - 2
/// down leave less than a quarter of a unit, which is rounded to zero.
fn reduced(format: &Format, n: i64) -> i64 {
    let d = format.infinity_log2() as i64;
    n.clamp(-d - 2, d)
}

/// The number of units nearest to units / 2^down that the format's digits can write, were there no
/// largest exponent; of two equally near the one whose last digit is even.
///
/// The format writes every number of F + 1 digits. Of a longer one it writes the first F + 1, so
/// what it writes are multiples of 2^s, s being the digits that are too many.
pub fn nearest(format: &Format, units: &Natural, down: u32) -> Natural {
    let digits = units.size().saturating_sub(down);
    let s = digits.saturating_sub(format.fraction_bits + 1);
    let (quotient, rest) = units.div_rem_power_of_two(down + s);
    let against_half = (&rest * 2).cmp(&Natural::power_of_two(down + s));
    let position = Position {
        negative: false,
        odd_quotient: quotient.is_odd(),
        rest: Rest::new(rest.is_zero(), against_half),
    };
    let count = &quotient + &Natural::from(rule::nearbyint(position) as u64);
    &count << s
}
