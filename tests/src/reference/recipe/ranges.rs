//! Ranges: the rules that give a step's from those of its operands, and when they refuse it.

use super::operations::{Function, Kind, Way};
use crate::reference::natural::Natural;
use crate::reference::{order, short, Class, BINARY64};
use std::cmp::Ordering;
use std::sync::LazyLock;

/// From one number to another, as words of the step's kind.
#[derive(Clone, Copy, Debug, PartialEq, Eq)]
pub struct Range {
    pub low: u64,
    pub high: u64,
}

impl Range {
    /// One number alone.
    pub fn of(word: u64) -> Range {
        let (low, high) = (word, word);
        Range { low, high }
    }

    /// Whether it holds one number alone. The zeros are one, in either order.
    pub fn is_one_number(&self, way: Way, kind: Kind) -> bool {
        kind.compare(way, self.low, self.high) == Ordering::Equal
    }

    /// Whether a word is not a NaN and, as a number, neither below low nor above high.
    pub fn holds(&self, way: Way, kind: Kind, word: u64) -> bool {
        !kind.is_nan(word)
            && kind.compare(way, word, self.low) != Ordering::Less
            && kind.compare(way, word, self.high) != Ordering::Greater
    }
}

/// A range rule of document 01: the range of a step whose operands have the ranges a and b, or the
/// number of its refusal.
pub type Rule = fn(&Function, Way, Range, Range) -> Result<Range, u64>;

const PLUS_ZERO: u64 = 0;

/// 1 and 1 - 2^-53, which is the largest fraction there is.
static ONE_AND_BELOW: LazyLock<[u64; 2]> = LazyLock::new(|| {
    let one = Natural::power_of_two(BINARY64.one_log2());
    let below_one = &one - &Natural::power_of_two(BINARY64.one_log2() - 53);
    [one, below_one].map(|units| BINARY64.encode(&units))
});

/// The function of each end: of lows, of highs.
pub fn of_ends(function: &Function, way: Way, a: Range, b: Range) -> Result<Range, u64> {
    Ok(Range {
        low: function.value(way, a.low, b.low)?,
        high: function.value(way, a.high, b.high)?,
    })
}

/// "low-high, high-low".
pub fn of_crossed_ends(function: &Function, way: Way, a: Range, b: Range) -> Result<Range, u64> {
    Ok(Range {
        low: function.value(way, a.low, b.high)?,
        high: function.value(way, a.high, b.low)?,
    })
}

/// "negated high, negated low".
pub fn of_swapped_ends(function: &Function, way: Way, a: Range, _: Range) -> Result<Range, u64> {
    Ok(Range {
        low: function.value(way, a.high, 0)?,
        high: function.value(way, a.low, 0)?,
    })
}

/// "low: +0 if a.low ≥ 0; a.low if above -1; else -(1-2^-53). High: +0 if a.high ≤ 0; a.high if
/// below 1; else 1-2^-53".
pub fn of_fraction(_: &Function, way: Way, a: Range, _: Range) -> Result<Range, u64> {
    let [one, below_one] = *ONE_AND_BELOW;
    let [minus_one, above_minus_one] = [one, below_one].map(|x| BINARY64.negate(x));
    Ok(Range {
        low: match (against_zero(way, a.low), compare(way, a.low, minus_one)) {
            (Ordering::Greater | Ordering::Equal, _) => PLUS_ZERO,
            (_, Ordering::Greater) => a.low,
            _ => above_minus_one,
        },
        high: match (against_zero(way, a.high), compare(way, a.high, one)) {
            (Ordering::Less | Ordering::Equal, _) => PLUS_ZERO,
            (_, Ordering::Less) => a.high,
            _ => below_one,
        },
    })
}

/// "a.low ≥ 0: fabs of low, of high; else a.high ≤ 0: fabs of high, of low; else +0, fmax(fabs low,
/// fabs high)".
pub fn of_magnitude(function: &Function, way: Way, a: Range, _: Range) -> Result<Range, u64> {
    let fabs_low = function.value(way, a.low, 0)?;
    let fabs_high = function.value(way, a.high, 0)?;
    let (low, high) = if against_zero(way, a.low) != Ordering::Less {
        (fabs_low, fabs_high)
    } else if against_zero(way, a.high) != Ordering::Greater {
        (fabs_high, fabs_low)
    } else {
        (PLUS_ZERO, fmax(way, fabs_low, fabs_high))
    };
    Ok(Range { low, high })
}

/// "M = fmax(fabs b.low, fabs b.high). Low: +0 if a.low ≥ 0, else -fmin(fabs a.low, M). High: +0 if
/// a.high ≤ 0, else fmin(a.high, M)". Refusal 20: "an infinite end of a, or b holds zero".
pub fn of_fmod(_: &Function, way: Way, a: Range, b: Range) -> Result<Range, u64> {
    expect_division(way, a, b)?;
    let m = greatest_magnitude(way, b);
    Ok(Range {
        low: match against_zero(way, a.low) {
            Ordering::Greater | Ordering::Equal => PLUS_ZERO,
            Ordering::Less => BINARY64.negate(fmin(way, BINARY64.fabs(a.low), m)),
        },
        high: match against_zero(way, a.high) {
            Ordering::Less | Ordering::Equal => PLUS_ZERO,
            Ordering::Greater => fmin(way, a.high, m),
        },
    })
}

/// W-204: "Let m be the smaller, by fmin, of the greatest magnitudes among the ends of a and of b; its
/// range is -m to m". Refusal 20 "on the same terms as fmod".
pub fn of_nearest_remainder(_: &Function, way: Way, a: Range, b: Range) -> Result<Range, u64> {
    expect_division(way, a, b)?;
    let [of_a, of_b] = [a, b].map(|range| greatest_magnitude(way, range));
    let m = fmin(way, of_a, of_b);
    Ok(Range {
        low: BINARY64.negate(m),
        high: m,
    })
}

/// Refusal 20: "an infinite end of a, or b holds zero".
fn expect_division(way: Way, a: Range, b: Range) -> Result<(), u64> {
    let infinite = is_infinite(a.low) || is_infinite(a.high);
    match infinite || b.holds(way, Kind::Double, PLUS_ZERO) {
        true => Err(20),
        false => Ok(()),
    }
}

fn greatest_magnitude(way: Way, range: Range) -> u64 {
    fmax(way, BINARY64.fabs(range.low), BINARY64.fabs(range.high))
}

/// The ends of a, each scaled by its power. Refusal 21: "infinite end of a, or either end's scaling
/// overflows".
pub fn of_scaling(function: &Function, way: Way, a: Range, b: Range) -> Result<Range, u64> {
    if is_infinite(a.low) || is_infinite(a.high) {
        return Err(21);
    }
    let [by_low, by_high] = scaling_powers(way, a, b);
    Ok(Range {
        low: function.value(way, a.low, by_low)?,
        high: function.value(way, a.high, by_high)?,
    })
}

/// The powers by which the low and the high end of a are scaled: "low: a.low by b.high if a.low <
/// 0, else by b.low. High: a.high by b.high if a.high > 0, else by b.low".
pub fn scaling_powers(way: Way, a: Range, b: Range) -> [u64; 2] {
    let by_low = match against_zero(way, a.low) {
        Ordering::Less => b.high,
        Ordering::Greater | Ordering::Equal => b.low,
    };
    let by_high = match against_zero(way, a.high) {
        Ordering::Greater => b.high,
        Ordering::Less | Ordering::Equal => b.low,
    };
    [by_low, by_high]
}

/// "add low+low to high+high". Refusal 20: "infinite end", then 21: "any end sum".
pub fn of_sum(function: &Function, way: Way, a: Range, b: Range) -> Result<Range, u64> {
    expect_finite_ends(a, b)?;
    of_ends(function, way, a, b)
}

/// "subtract low-high to high-low". Refused as a sum, 21 for an end difference.
pub fn of_difference(function: &Function, way: Way, a: Range, b: Range) -> Result<Range, u64> {
    expect_finite_ends(a, b)?;
    of_crossed_ends(function, way, a, b)
}

/// "multiply the fmin and the fmax of the four end products". Refused as a sum, 21 for any of the four.
pub fn of_product(function: &Function, way: Way, a: Range, b: Range) -> Result<Range, u64> {
    expect_finite_ends(a, b)?;
    let mut products = Vec::with_capacity(4);
    for [x, y] in pairs_of_ends(a, b) {
        products.push(function.value(way, x, y)?);
    }
    Ok(least_and_greatest(way, &products))
}

/// Each end of a with each of b.
pub fn pairs_of_ends(a: Range, b: Range) -> [[u64; 2]; 4] {
    [
        [a.low, b.low],
        [a.low, b.high],
        [a.high, b.low],
        [a.high, b.high],
    ]
}

/// The fmin and the fmax of some numbers.
pub fn least_and_greatest(way: Way, numbers: &[u64]) -> Range {
    let chosen = |choose: fn(Way, u64, u64) -> u64| {
        let numbers = numbers.iter().copied();
        numbers.reduce(|x, y| choose(way, x, y)).expect("a number")
    };
    Range {
        low: chosen(fmin),
        high: chosen(fmax),
    }
}

/// Refusal 20: "an infinite operand (sheet: infinite end)".
fn expect_finite_ends(a: Range, b: Range) -> Result<(), u64> {
    match [a.low, a.high, b.low, b.high].into_iter().any(is_infinite) {
        true => Err(20),
        false => Ok(()),
    }
}

/// As numbers: that fmin and fmax tell the zeros apart (W-202) changes no comparison of a rule.
fn compare(way: Way, x: u64, y: u64) -> Ordering {
    Kind::Double.compare(way, x, y)
}

fn against_zero(way: Way, x: u64) -> Ordering {
    compare(way, x, PLUS_ZERO)
}

/// Whether an end of a double's range is an infinity.
pub fn is_infinite(end: u64) -> bool {
    BINARY64.classify(end) == Class::Infinite
}

fn fmin(way: Way, x: u64, y: u64) -> u64 {
    match way {
        Way::Exact => order::fmin(&BINARY64, x, y),
        Way::Short => short::order::fmin(&BINARY64, x, y),
        Way::FirstOfEqual => short::first_of_equal::fmin(&BINARY64, x, y),
    }
}

fn fmax(way: Way, x: u64, y: u64) -> u64 {
    match way {
        Way::Exact => order::fmax(&BINARY64, x, y),
        Way::Short => short::order::fmax(&BINARY64, x, y),
        Way::FirstOfEqual => short::first_of_equal::fmax(&BINARY64, x, y),
    }
}
