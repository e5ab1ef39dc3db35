//! fmin, fmax and nextafter: what stands before and after a number.

use super::format::{Class, Format};
use super::natural::Natural;
use super::overflow::finite_or_refused;
use crate::answer::Answer;
use std::cmp::Ordering;

/// The units of a number, its sign left aside; of an infinity those that the same rule would give
/// it, which lie beyond every finite number.
fn units(format: &Format, x: u64) -> Natural {
    match format.classify(x) {
        Class::Infinite => Natural::power_of_two(format.infinity_log2()),
        _ => format.magnitude(x),
    }
}

/// The numeric order of two patterns that are no NaN: the two zeros are equal. nextafter, ranges and
/// refusals go by it.
pub fn compare(format: &Format, x: u64, y: u64) -> Ordering {
    let (a, b) = (units(format, x), units(format, y));
    match (format.is_negative(x), format.is_negative(y)) {
        _ if a.is_zero() && b.is_zero() => Ordering::Equal,
        (false, false) => a.cmp(&b),
        (true, true) => b.cmp(&a),
        (true, false) => Ordering::Less,
        (false, true) => Ordering::Greater,
    }
}

/// The order by which fmin and fmax choose, of two patterns that are no NaN: the numeric one, with
/// -0 below +0 (W-202). Two patterns are equal in it only where they are the same, so what is chosen
/// by it doesn't depend on which of them comes first.
pub fn compare_zeros_apart(format: &Format, x: u64, y: u64) -> Ordering {
    match (format.classify(x), format.classify(y)) {
        (Class::Zero, Class::Zero) => format.is_negative(y).cmp(&format.is_negative(x)),
        _ => compare(format, x, y),
    }
}

/// The operand that has this place beside the other, Less or Greater.
///
/// Special cases are:
/// - one NaN gives the other operand
/// - two NaNs give the first, quieted
fn chosen(format: &Format, x: u64, y: u64, place: Ordering) -> u64 {
    match (format.classify(x), format.classify(y)) {
        (Class::Nan, Class::Nan) => format.quieted(x),
        (Class::Nan, _) => y,
        (_, Class::Nan) => x,
        _ if compare_zeros_apart(format, x, y) == place => x,
        _ => y,
    }
}

/// The smaller operand, -0 being below +0 in whichever order they come (W-202).
pub fn fmin(format: &Format, x: u64, y: u64) -> u64 {
    chosen(format, x, y, Ordering::Less)
}

/// The larger operand, -0 being below +0 in whichever order they come (W-202).
pub fn fmax(format: &Format, x: u64, y: u64) -> u64 {
    chosen(format, x, y, Ordering::Greater)
}

/// The neighbour of x towards y.
///
/// Special cases are:
/// - nextafter(NaN, y), nextafter(x, NaN) = the first NaN, quieted
/// - nextafter(x, y) = y where they are equal, as the two zeros are
/// - nextafter(±0, y) = the smallest subnormal of y's sign
/// - a zero reached from a subnormal keeps x's sign
///
/// Refuses 3 where x is finite and the result infinite: infinity of the result's sign.
pub fn nextafter(format: &Format, x: u64, y: u64) -> Answer {
    if let Some(nan) = format.first_nan(x, y) {
        return Answer::word(format.quieted(nan));
    }
    let upwards = match compare(format, x, y) {
        Ordering::Equal => return Answer::word(y),
        Ordering::Less => true,
        Ordering::Greater => false,
    };
    if format.classify(x) == Class::Zero {
        let sign = y & format.sign_bit();
        return Answer::word(sign | format.encode(&Natural::from(1)));
    }
    let away_from_zero = upwards != format.is_negative(x);
    let sign = x & format.sign_bit();
    finite_or_refused(format, sign, &beside(format, x, away_from_zero))
}

/// The units of the neighbour of x, other than zero, on one side.
///
/// From a number to the next with the same exponent field e it is 2^(e - 1) units, and one unit
/// where e is 0. A number with fraction 0 is the first of its field: the one before it lies in the
/// field below.
fn beside(format: &Format, x: u64, away_from_zero: bool) -> Natural {
    let step = |field: u64| Natural::power_of_two(field.saturating_sub(1) as u32);
    let field = format.exponent_field(x);
    if away_from_zero {
        &units(format, x) + &step(field)
    } else if format.fraction(x) == 0 {
        &units(format, x) - &step(field - 1)
    } else {
        &units(format, x) - &step(field)
    }
}
