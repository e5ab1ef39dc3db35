//! floor, ceil, trunc, round, nearbyint and lround, by their definitions on whole numbers of units.
//!
//! A magnitude is divided by the unit 1.0. The integer is the quotient, or one more where the rule
//! of the function says so. Zeros and infinities return unchanged, a NaN quieted, and a zero result
//! has x's sign.

use super::format::{Class, Format};
use super::natural::Natural;
use crate::answer::Answer;
use std::cmp::Ordering;

/// What the division by 1.0 left over.
#[derive(Clone, Copy, Debug, PartialEq, Eq)]
pub enum Rest {
    Zero,
    BelowHalf,
    Half,
    AboveHalf,
}

impl Rest {
    pub fn new(is_zero: bool, against_half: Ordering) -> Rest {
        match against_half {
            _ if is_zero => Rest::Zero,
            Ordering::Less => Rest::BelowHalf,
            Ordering::Equal => Rest::Half,
            Ordering::Greater => Rest::AboveHalf,
        }
    }
}

/// A number between two integers, as far as a rule has to know it.
#[derive(Clone, Copy, Debug)]
pub struct Position {
    pub negative: bool,
    pub odd_quotient: bool,
    pub rest: Rest,
}

/// The rules: whether the integer farther from zero is taken.
pub mod rule {
    use super::{Position, Rest};

    /// The greatest integer not above x.
    pub fn floor(position: Position) -> bool {
        position.negative && position.rest != Rest::Zero
    }

    /// The least integer not below x.
    pub fn ceil(position: Position) -> bool {
        !position.negative && position.rest != Rest::Zero
    }

    /// The nearest integer not larger in magnitude.
    pub fn trunc(_: Position) -> bool {
        false
    }

    /// The nearest integer, halves away from zero.
    pub fn round(position: Position) -> bool {
        matches!(position.rest, Rest::Half | Rest::AboveHalf)
    }

    /// The nearest integer, halves to even.
    pub fn nearbyint(position: Position) -> bool {
        match position.rest {
            Rest::Zero | Rest::BelowHalf => false,
            Rest::Half => position.odd_quotient,
            Rest::AboveHalf => true,
        }
    }
}

/// The magnitude of the integer that the rule takes for a finite x.
fn integer(format: &Format, x: u64, farther: impl Fn(Position) -> bool) -> Natural {
    let (quotient, rest) = format.magnitude(x).div_rem_power_of_two(format.one_log2());
    let half = Natural::power_of_two(format.one_log2() - 1);
    let position = Position {
        negative: format.is_negative(x),
        odd_quotient: quotient.is_odd(),
        rest: Rest::new(rest.is_zero(), rest.cmp(&half)),
    };
    if farther(position) {
        &quotient + &Natural::from(1)
    } else {
        quotient
    }
}

fn rounded(format: &Format, x: u64, farther: impl Fn(Position) -> bool) -> u64 {
    match format.classify(x) {
        Class::Nan => format.quieted(x),
        Class::Infinite | Class::Zero => x,
        Class::Subnormal | Class::Normal => {
            let units = &integer(format, x, farther) << format.one_log2();
            (x & format.sign_bit()) | format.encode(&units)
        }
    }
}

pub fn floor(format: &Format, x: u64) -> u64 {
    rounded(format, x, rule::floor)
}

pub fn ceil(format: &Format, x: u64) -> u64 {
    rounded(format, x, rule::ceil)
}

pub fn trunc(format: &Format, x: u64) -> u64 {
    rounded(format, x, rule::trunc)
}

pub fn round(format: &Format, x: u64) -> u64 {
    rounded(format, x, rule::round)
}

pub fn nearbyint(format: &Format, x: u64) -> u64 {
    rounded(format, x, rule::nearbyint)
}

/// round(x) as a signed 64-bit number. Refuses 1 where x is a NaN; refuses 3 where x is infinite or
/// round(x) lies outside -2^63 to 2^63 - 1; both return 0.
pub fn lround(format: &Format, x: u64) -> Answer {
    match format.classify(x) {
        Class::Nan => Answer::refused(1, 0),
        Class::Infinite => Answer::refused(3, 0),
        Class::Zero | Class::Subnormal | Class::Normal => {
            let magnitude = integer(format, x, rule::round);
            magnitude
                .to_u64()
                .and_then(|magnitude| signed(format.is_negative(x), magnitude))
                .map_or(Answer::refused(3, 0), Answer::whole)
        }
    }
}

/// The signed 64-bit number of this sign and magnitude, if there is one.
pub fn signed(negative: bool, magnitude: u64) -> Option<i64> {
    let magnitude = magnitude as i128;
    i64::try_from(if negative { -magnitude } else { magnitude }).ok()
}
