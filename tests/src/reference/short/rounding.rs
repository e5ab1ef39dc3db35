//! The roundings in machine words: same rules as the authority's.

use super::{pack, split};
use crate::answer::Answer;
use crate::reference::rounding::{rule, signed, Position, Rest};
use crate::reference::{Class, Format};

/// Significand and exponent of a finite x: its magnitude is significand · 2^exponent, in ones.
fn scientific(format: &Format, x: u64) -> (u64, i32) {
    let (significand, exponent) = split(format, x);
    (significand, exponent as i32 - format.one_log2() as i32)
}

/// The integer that the rule takes for significand / 2^down, down at least 1.
fn integer(significand: u64, down: u32, negative: bool, farther: impl Fn(Position) -> bool) -> u64 {
    // A significand is below 2^61. From 2^62 on, the quotient stays 0 and the rest below half.
    let down = down.min(62);
    let quotient = significand >> down;
    let rest = significand - (quotient << down);
    let half = 1 << (down - 1);
    let position = Position {
        negative,
        odd_quotient: quotient % 2 == 1,
        rest: Rest::new(rest == 0, rest.cmp(&half)),
    };
    quotient + farther(position) as u64
}

fn rounded(format: &Format, x: u64, farther: impl Fn(Position) -> bool) -> u64 {
    match format.classify(x) {
        Class::Nan => format.quieted(x),
        Class::Infinite | Class::Zero => x,
        Class::Subnormal | Class::Normal => {
            let (significand, exponent) = scientific(format, x);
            if exponent >= 0 {
                return x; // a multiple of 1.0 already: quotient x, rest 0
            }
            let negative = format.is_negative(x);
            let integer = integer(significand, exponent.unsigned_abs(), negative, farther);
            (x & format.sign_bit()) | pack(format, integer, format.one_log2())
        }
    }
}

pub fn floor(format: &Format, x: u64) -> u64 {
    rounded(format, x, rule::floor)
}

pub fn ceil(format: &Format, x: u64) -> u64 {
    rounded(format, x, rule::ceil)
}

pub fn trunc(format: &Format, x: u64) -> u64 {
    rounded(format, x, rule::trunc)
}

pub fn round(format: &Format, x: u64) -> u64 {
    rounded(format, x, rule::round)
}

pub fn nearbyint(format: &Format, x: u64) -> u64 {
    rounded(format, x, rule::nearbyint)
}

pub fn lround(format: &Format, x: u64) -> Answer {
    match format.classify(x) {
        Class::Nan => Answer::refused(1, 0),
        Class::Infinite => Answer::refused(3, 0),
        Class::Zero | Class::Subnormal | Class::Normal => {
            let (significand, exponent) = scientific(format, x);
            let negative = format.is_negative(x);
            let magnitude = if exponent < 0 {
                let down = exponent.unsigned_abs();
                Some(integer(significand, down, negative, rule::round))
            } else if exponent as u32 <= significand.leading_zeros() {
                Some(significand << exponent)
            } else {
                None // 2^64 or more
            };
            magnitude
                .and_then(|magnitude| signed(negative, magnitude))
                .map_or(Answer::refused(3, 0), Answer::whole)
        }
    }
}
