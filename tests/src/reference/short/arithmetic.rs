//! Sums, differences and products in machine words of 128 bits.

use super::{pack, split};
use crate::answer::Answer;
use crate::reference::Format;

pub fn sum(format: &Format, x: u64, y: u64) -> Answer {
    let [a, b] = [x, y].map(|x| format.fabs(x));
    if a.max(b) >= format.infinity() {
        return Answer::refused(2, format.default_nan());
    }
    let (large, small) = if a >= b { (x, y) } else { (y, x) };
    let opposite = format.is_negative(x ^ y);
    if opposite && a == b {
        return Answer::word(0);
    }
    let (of_large, exponent) = split(format, large);
    let (of_small, below) = split(format, small);
    let large_digits = (of_large as u128) << SPARE;
    let small_digits = moved_down((of_small as u128) << SPARE, exponent - below);
    let digits = match opposite {
        false => large_digits + small_digits,
        true => large_digits - small_digits,
    };
    let magnitude = rounded(format, digits, exponent as i32 - SPARE as i32);
    with_sign(format, large, magnitude)
}

pub fn difference(format: &Format, x: u64, y: u64) -> Answer {
    sum(format, x, y ^ format.sign_bit())
}

pub fn product(format: &Format, x: u64, y: u64) -> Answer {
    if format.fabs(x).max(format.fabs(y)) >= format.infinity() {
        return Answer::refused(2, format.default_nan());
    }
    let (a, of_x) = split(format, x);
    let (b, of_y) = split(format, y);
    let exponent = (of_x + of_y) as i32 - format.one_log2() as i32;
    let magnitude = rounded(format, a as u128 * b as u128, exponent);
    with_sign(format, x ^ y, magnitude)
}

/// Places below the last of a sum's larger operand. A significand has at most 61 digits, and a carry
/// takes one more.
const SPARE: u32 = 64;

/// So many places down. Of the digits that fall off it is kept whether any was 1, in the last that is
/// left: more than one place above it a number is rounded, so all that matters there is that
/// something was left.
fn moved_down(digits: u128, places: u32) -> u128 {
    if places >= 128 {
        return (digits != 0) as u128;
    }
    let left = digits >> places;
    left | (left << places != digits) as u128
}

/// The sign-less pattern nearest to digits · 2^exponent units, halves to even.
fn rounded(format: &Format, digits: u128, exponent: i32) -> u64 {
    let size = (128 - digits.leading_zeros()) as i32;
    // How many digits are too many: for the fraction, or since they count less than a unit.
    let off = (size - format.fraction_bits as i32 - 1).max(-exponent);
    if off <= 0 {
        return pack(format, digits as u64, exponent as u32);
    }
    if off > size {
        return 0; // less than half a unit
    }
    let kept = digits.checked_shr(off as u32).unwrap_or(0);
    let half = 1 << (off - 1);
    let rest = digits & (half | (half - 1));
    let up = rest > half || rest == half && kept % 2 == 1;
    pack(format, kept as u64 + up as u64, (exponent + off) as u32)
}

fn with_sign(format: &Format, signed: u64, magnitude: u64) -> Answer {
    let refusal = if magnitude == format.infinity() { 3 } else { 0 };
    Answer::refused(refusal, (signed & format.sign_bit()) | magnitude)
}
