//! The patterns that the functions are tried on: those where a mistake would sit, and random ones.

use crate::reference::Format;
use std::ops::Range;

/// The exponent fields in which rounding happens, and some on either side: from 1/8, which rounds
/// as every smaller number does, to 2^(F + 2), past the first numbers that are all integers.
fn rounding_fields(format: &Format) -> Range<u64> {
    let one = format.bias();
    one - 3..one + format.fraction_bits as u64 + 3
}

/// The fraction bits below the place that counts 1/2, for numbers with this exponent field: none
/// where there are no halves any more, all of them where 1/2 is not below the leading digit.
fn bits_below_half(format: &Format, exponent_field: u64) -> u32 {
    let above_half = exponent_field as i64 - (format.bias() as i64 - 1);
    (format.fraction_bits as i64 - above_half).clamp(0, format.fraction_bits as i64) as u32
}

/// Whether a format has so few patterns that all are tried: halves have.
pub fn edges_are_all(format: &Format) -> bool {
    format.width() <= 16
}

/// Patterns where a mistake would sit, of both signs. Of a narrow format all of them. Else every exponent field with the fractions at
/// its ends and its middle; the first and last subnormal number of every size; where rounding
/// happens, also the first and last multiples of 1/2 in the field, with their neighbours.
pub fn edges(format: &Format) -> Vec<u64> {
    if edges_are_all(format) {
        return (0..1 << format.width()).collect();
    }
    let field_size = 1 << format.fraction_bits;
    let half = field_size / 2;
    let ones = field_size - 1;
    let mut edges = Vec::new();
    for field in 0..=format.largest_exponent_field() {
        for fraction in [0, 1, half - 1, half, half + 1, ones - 1, ones] {
            edges.push(field * field_size + fraction);
        }
    }
    for digits in 1..=format.fraction_bits {
        edges.extend([1 << (digits - 1), (1 << digits) - 1]);
    }
    for field in rounding_fields(format) {
        let step = 1 << bits_below_half(format, field);
        let (first, past) = (field * field_size, (field + 1) * field_size);
        for count in 0..=8.min(field_size / step) {
            for multiple in [first + count * step, past - count * step] {
                edges.extend(multiple - 2..=multiple + 2);
            }
        }
    }
    let negated: Vec<u64> = edges.iter().map(|&x| format.negate(x)).collect();
    edges.extend(negated);
    edges.sort_unstable();
    edges.dedup();
    edges
}

/// A deterministic random generator: splitmix64.
pub struct Random {
    state: u64,
}

impl Random {
    pub fn new(seed: u64) -> Random {
        Random { state: seed }
    }

    /// A word, each equally likely.
    pub fn word(&mut self) -> u64 {
        self.state = self.state.wrapping_add(0x9e37_79b9_7f4a_7c15);
        let mixed = (self.state ^ self.state >> 30).wrapping_mul(0xbf58_476d_1ce4_e5b9);
        let mixed = (mixed ^ mixed >> 27).wrapping_mul(0x94d0_49bb_1331_11eb);
        mixed ^ mixed >> 31
    }

    /// A number below the bound.
    pub fn below(&mut self, bound: u64) -> u64 {
        ((self.word() as u128 * bound as u128) >> 64) as u64
    }

    /// A number of a range, each equally likely.
    pub fn within(&mut self, range: Range<i64>) -> i64 {
        let count = range.end.abs_diff(range.start);
        range.start.wrapping_add_unsigned(self.below(count))
    }

    /// A pattern, each equally likely.
    pub fn uniform(&mut self, format: &Format) -> u64 {
        self.word() >> (64 - format.width())
    }

    /// A pattern whose exponent lies where rounding happens: few uniform patterns do. Two of three
    /// stand on a multiple of 1/2 or right beside one, which a random fraction almost never does.
    pub fn near_rounding(&mut self, format: &Format) -> u64 {
        let fields = rounding_fields(format);
        let field = fields.start + self.below(fields.end - fields.start);
        let uniform = self.uniform(format);
        let sign = uniform & format.sign_bit();
        let x = sign | field << format.fraction_bits | format.fraction(uniform);
        self.near_multiple(x, bits_below_half(format, field))
    }

    /// x, or the multiple of 2^bits below it, or a number right beside that one.
    pub fn near_multiple(&mut self, x: u64, bits: u32) -> u64 {
        let multiple = x >> bits << bits;
        match self.below(6) {
            0 | 1 => x,
            2 | 3 => multiple,
            4 => multiple - 1,
            _ => multiple + 1,
        }
    }

    /// A number of so many binary digits, at least 1.
    pub fn of_digits(&mut self, digits: u32) -> u64 {
        let leading = 1 << (digits - 1);
        leading | (self.word() % leading)
    }

    /// A subnormal number, one of few digits as likely as one of many.
    pub fn subnormal(&mut self, format: &Format) -> u64 {
        let digits = 1 + self.below(format.fraction_bits as u64) as u32;
        (self.uniform(format) & format.sign_bit()) | self.of_digits(digits)
    }

    /// A pattern with this exponent field.
    pub fn in_field(&mut self, format: &Format, field: u64) -> u64 {
        let uniform = self.uniform(format);
        (uniform & format.sign_bit()) | field << format.fraction_bits | format.fraction(uniform)
    }

    /// Uniform, near rounding and subnormal by turns.
    pub fn pattern(&mut self, format: &Format) -> u64 {
        match self.below(8) {
            0..=2 => self.uniform(format),
            3..=6 => self.near_rounding(format),
            _ => self.subnormal(format),
        }
    }
}

#[cfg(test)]
mod tests {
    use super::*;
    use crate::reference::{Class, BINARY16, BINARY32, BINARY64};
    use std::collections::HashSet;

    #[test]
    fn every_half_is_an_edge() {
        assert!(edges(&BINARY16).into_iter().eq(0..65_536));
        assert!(![BINARY64, BINARY32].iter().any(edges_are_all));
    }

    #[test]
    fn edges_hold_every_field_and_every_boundary() {
        let [edges64, edges32] = [BINARY64, BINARY32].map(|format| {
            let edges: HashSet<u64> = edges(&format).into_iter().collect();
            for field in 0..=format.largest_exponent_field() {
                let x = field << format.fraction_bits;
                assert!(
                    edges.contains(&x) && edges.contains(&format.negate(x)),
                    "{x:x}"
                );
            }
            edges
        });
        for (x, y) in [
            (0x3fdfffffffffffff, 0x3effffff), // just below 0.5
            (0x3fe0000000000001, 0x3f000001), // just above 0.5
            (0x3fefffffffffffff, 0x3f7fffff), // just below 1
            (0x4003ffffffffffff, 0x401fffff), // just below 2.5
            (0x4004000000000001, 0x40200001), // just above 2.5
            (0xc00c000000000000, 0xc0600000), // -3.5
            (0x432ffffffffffffd, 0x4afffffd), // 2^F - 1.5
            (0x4330000000000001, 0x4b000001), // 2^F + 1
            (0x43dfffffffffffff, 0x5effffff), // just below 2^63
            (0xc3e0000000000001, 0xdf000001), // just below -2^63
            (0x0000000000000040, 0x00000040), // the first subnormal number of 7 digits
            (0x800000000000007f, 0x8000007f), // the last, negated
            (0x7ff0000000000001, 0x7f800001), // a signalling NaN
            (0xfff8000000000000, 0xffc00000), // a quiet NaN
        ] {
            assert!(edges64.contains(&x), "{x:x}");
            assert!(edges32.contains(&y), "{y:x}");
        }
    }

    /// A generator that missed the halves would leave the two nearest roundings untried.
    #[test]
    fn random_patterns_meet_halves_and_their_neighbours() {
        for format in [BINARY64, BINARY32] {
            let mut random = Random::new(3);
            let patterns: Vec<u64> = (0..100_000).map(|_| random.pattern(&format)).collect();
            let two_and_a_half =
                ((format.bias() + 1) << format.fraction_bits) + (1 << (format.fraction_bits - 2));
            for x in [two_and_a_half - 1, two_and_a_half, two_and_a_half + 1] {
                assert!(patterns.contains(&x), "{x:x}");
                assert!(patterns.contains(&format.negate(x)), "{x:x} negated");
            }
            assert!(patterns.iter().any(|&x| format.classify(x) == Class::Nan));
            assert!(patterns
                .iter()
                .any(|&x| format.classify(x) == Class::Subnormal));
            assert!(patterns.iter().all(|&x| format.fabs(x) < format.sign_bit()));
        }
    }
}
