//! fmin, fmax and nextafter by the rank of patterns.

use crate::answer::Answer;
use crate::reference::{Class, Format};
use std::cmp::Ordering;

/// A number that orders patterns as fmin and fmax do, -0 below +0 (W-202): the rank, and one less
/// for a pattern with a sign, so that -0 is -1 and what is below it makes room.
const fn rank_zeros_apart(format: &Format, x: u64) -> i64 {
    format.rank(x) - format.is_negative(x) as i64
}

/// Of two numbers x where `takes_x`, else y; one NaN gives the other operand, two the first quieted.
pub(super) fn chosen(format: &Format, x: u64, y: u64, takes_x: impl FnOnce() -> bool) -> u64 {
    match (format.classify(x), format.classify(y)) {
        (Class::Nan, Class::Nan) => format.quieted(x),
        (Class::Nan, _) => y,
        (_, Class::Nan) => x,
        _ if takes_x() => x,
        _ => y,
    }
}

pub fn fmin(format: &Format, x: u64, y: u64) -> u64 {
    let [a, b] = [x, y].map(|x| rank_zeros_apart(format, x));
    chosen(format, x, y, || a < b)
}

pub fn fmax(format: &Format, x: u64, y: u64) -> u64 {
    let [a, b] = [x, y].map(|x| rank_zeros_apart(format, x));
    chosen(format, x, y, || a > b)
}

pub fn nextafter(format: &Format, x: u64, y: u64) -> Answer {
    if let Some(nan) = format.first_nan(x, y) {
        return Answer::word(format.quieted(nan));
    }
    let neighbour = match format.rank(x).cmp(&format.rank(y)) {
        Ordering::Equal => return Answer::word(y),
        Ordering::Less => format.rank(x) + 1,
        Ordering::Greater => format.rank(x) - 1,
    };
    // A rank of 0 has no sign of its own: a zero is reached from x.
    let negative = neighbour < 0 || neighbour == 0 && format.is_negative(x);
    let sign = if negative { format.sign_bit() } else { 0 };
    let word = sign | neighbour.unsigned_abs();
    let overflow = format.classify(word) == Class::Infinite;
    Answer::refused(if overflow { 3 } else { 0 }, word)
}
