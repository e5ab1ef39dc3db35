//! The functions again in machine words, for billions of patterns.
//!
//! Same definitions as beside this folder, where the authority stays. The difference: a power of
//! two that the numbers of a division have in common is cancelled before it, so that what is left
//! fits a machine word, and patterns are compared and counted in place of the numbers they stand
//! for. The tests hold the two against each other. `first_of_equal` alone has other answers: those
//! from before W-202.

pub mod arithmetic;
pub mod conversion;
pub mod first_of_equal;
pub mod fmod;
pub mod ldexp;
pub mod order;
pub mod parts;
pub mod remainder;
pub mod rounding;
pub mod whole;

use super::format::Format;

/// Significand and exponent of a finite x: its magnitude is significand · 2^exponent units.
pub fn split(format: &Format, x: u64) -> (u64, u32) {
    match (format.exponent_field(x), format.fraction(x)) {
        (0, m) => (m, 0),
        (e, m) => ((1 << format.fraction_bits) + m, e as u32 - 1),
    }
}

/// What a·2^places leaves when divided by b: the places are put to the remainder 64 at a time, since
/// (a mod b)·2^k leaves the same as a·2^k.
fn residue(a: u64, places: u32, b: u64) -> u64 {
    let mut left = a % b;
    let mut places = places;
    while places > 0 && left > 0 {
        let portion = places.min(64);
        left = (((left as u128) << portion) % b as u128) as u64;
        places -= portion;
    }
    left
}

/// The number of binary digits, 0 for zero.
fn size(word: u64) -> u32 {
    64 - word.leading_zeros()
}

/// The sign-less pattern of significand · 2^exponent units, a number that the format can write;
/// infinity where it is beyond the largest.
pub fn pack(format: &Format, significand: u64, exponent: u32) -> u64 {
    let all_digits = format.fraction_bits + 1;
    let digits = size(significand);
    if digits == 0 {
        return 0;
    }
    if digits + exponent < all_digits {
        return significand << exponent;
    }
    let field = (digits + exponent - format.fraction_bits) as u64;
    if field >= format.largest_exponent_field() {
        return format.infinity();
    }
    // A number rounded up may have one digit more, and is then a power of two.
    let normalised = if digits <= all_digits {
        significand << (all_digits - digits)
    } else {
        significand >> (digits - all_digits)
    };
    (field << format.fraction_bits) + format.fraction(normalised)
}
