//! Pairs of patterns that the functions of two numbers are tried on.

use crate::patterns::Random;
use crate::reference::Format;

/// Patterns of both signs of which every pair is tried: zeros, subnormal numbers of few and many
/// digits, the first and last numbers of exponent fields near and far from each other, small
/// integers, infinities, and NaNs of several payloads.
pub fn edges(format: &Format) -> Vec<u64> {
    let f = format.fraction_bits as u64;
    let (bias, largest) = (format.bias(), format.largest_exponent_field());
    let fields = [
        0,
        1,
        2,
        3,
        f,
        f + 1,
        bias / 2,
        bias - f - 1,
        bias - 2,
        bias - 1,
        bias,
        bias + 1,
        bias + 2,
        bias + f - 1,
        bias + f,
        bias + f + 1,
        bias + bias / 2,
        largest - f,
        largest - 3,
        largest - 2,
        largest - 1,
        largest,
    ];
    let field_size = 1 << f;
    let (half, ones) = (field_size / 2, field_size - 1);
    let third = ones / 3; // digits 0101..
    let fractions = [
        0,
        1,
        2,
        third,
        half - 1,
        half,
        half + 1,
        2 * third,
        ones - 1,
        ones,
    ];
    let mut edges = Vec::new();
    for field in fields {
        edges.extend(fractions.map(|fraction| field * field_size + fraction));
    }
    for digit in (0..f).step_by(4) {
        edges.extend([1 << digit, 3 << digit].map(|units: u64| units % field_size));
    }
    edges.extend((1..=24).chain([100, 1000]).map(|n| integer(format, n)));
    let negated: Vec<u64> = edges.iter().map(|&x| format.negate(x)).collect();
    edges.extend(negated);
    edges.sort_unstable();
    edges.dedup();
    edges
}

/// The pattern of a small integer other than zero.
fn integer(format: &Format, n: u64) -> u64 {
    let exponent = n.ilog2();
    let fraction = (n << (format.fraction_bits - exponent)) - (1 << format.fraction_bits);
    (format.bias() + exponent as u64) << format.fraction_bits | fraction
}

impl Random {
    /// Two patterns that have to do with each other in one of the ways that matter.
    pub fn pair(&mut self, format: &Format) -> [u64; 2] {
        match self.below(8) {
            0 => [self.uniform(format), self.uniform(format)],
            1 => self.near_exponents(format),
            2 => self.far_exponents(format),
            3 => self.small(format),
            4 | 5 => self.multiples(format),
            6 => self.neighbours(format),
            _ => self.with_special(format),
        }
    }

    /// Exponents so near that both significands have digits at the same places.
    pub fn near_exponents(&mut self, format: &Format) -> [u64; 2] {
        let apart = format.fraction_bits as i64 + 3;
        let field = self.below(format.largest_exponent_field());
        let other = field as i64 + self.within(-apart..apart + 1);
        let other = other.clamp(0, format.largest_exponent_field() as i64 - 1) as u64;
        [self.in_field(format, field), self.in_field(format, other)]
    }

    /// Finite numbers of the upper and the lower half of the exponents, the larger one first in
    /// three of four: a division goes a long way.
    pub fn far_exponents(&mut self, format: &Format) -> [u64; 2] {
        let middle = format.largest_exponent_field() / 2;
        let (high, low) = (middle + self.below(middle), self.below(middle));
        let (x, y) = (self.in_field(format, high), self.in_field(format, low));
        if self.below(4) == 0 {
            [y, x]
        } else {
            [x, y]
        }
    }

    /// A subnormal number beside another, or beside one of the first normal ones.
    pub fn small(&mut self, format: &Format) -> [u64; 2] {
        let (x, y) = (self.subnormal(format), self.subnormal(format));
        let field = self.below(format.fraction_bits as u64 + 3);
        let normal = self.in_field(format, field);
        match self.below(4) {
            0 => [x, y],
            1 => [x, normal],
            _ => [normal, y],
        }
    }

    /// x an exact multiple of y, or the pattern beside one: there the remainder is 0, or jumps.
    pub fn multiples(&mut self, format: &Format) -> [u64; 2] {
        let all_digits = format.fraction_bits + 1;
        let digits = 1 + self.below(all_digits as u64) as u32;
        let divisor = self.of_digits(digits);
        let left = (all_digits - digits).max(1);
        let digits = 1 + self.below(left as u64) as u32;
        let factor = self.of_digits(digits);
        let multiple = divisor * factor;
        let (x, y) = if self.below(4) == 0 {
            // Up to F + 1 digits, a pattern is the number of units it stands for.
            (multiple, divisor)
        } else {
            // Both are shifted to F + 1 digits, the divisor by `gap` places more, so the multiple
            // has to stand that many exponent fields higher at least.
            let shift = |n: u64| n.leading_zeros() - (64 - all_digits);
            let gap = (shift(divisor) - shift(multiple)) as u64;
            let largest = format.largest_exponent_field();
            let low = 1 + self.below(largest - 1 - gap);
            let high = low + gap + self.below(largest - low - gap);
            let pattern =
                |n: u64, field: u64| field << format.fraction_bits | format.fraction(n << shift(n));
            (pattern(multiple, high), pattern(divisor, low))
        };
        let signs = self.word();
        let beside = match self.below(4) {
            0 => x + 1,
            1 => x - 1,
            _ => x,
        };
        let signed = |pattern, bit: u32| pattern | ((signs >> bit & 1) * format.sign_bit());
        [signed(beside, 0), signed(y, 1)]
    }

    /// Equal numbers, numbers beside each other, and the same with opposite signs.
    pub fn neighbours(&mut self, format: &Format) -> [u64; 2] {
        let mask = format.sign_bit() | (format.sign_bit() - 1);
        let x = match self.below(3) {
            0 => self.uniform(format),
            1 => self.subnormal(format),
            _ => {
                let field = self.below(format.largest_exponent_field() + 1);
                let sign = self.uniform(format) & format.sign_bit();
                sign | field << format.fraction_bits
            }
        };
        let y = x.wrapping_add_signed(self.within(-3..4)) & mask;
        let beside = x.wrapping_add_signed(self.within(-1..2)) & mask;
        match self.below(4) {
            0 => [x, x],
            1 => [beside, format.negate(y)],
            _ => [beside, y],
        }
    }

    /// A zero, infinity, NaN or number at the end of its class, beside anything.
    pub fn with_special(&mut self, format: &Format) -> [u64; 2] {
        let special = self.special(format);
        match self.below(3) {
            0 => [special, self.pattern(format)],
            1 => [self.pattern(format), special],
            _ => [special, self.special(format)],
        }
    }

    /// A zero, infinity, NaN, or number at the end of its class.
    pub fn special(&mut self, format: &Format) -> u64 {
        let field_size = 1 << format.fraction_bits;
        let sign = self.uniform(format) & format.sign_bit();
        let without_sign = match self.below(8) {
            0 => 0,
            1 => 1,
            2 => field_size - 1,
            3 => field_size,
            4 => format.infinity() - 1,
            5 => format.infinity(),
            _ => format.infinity() | format.fabs(self.subnormal(format)),
        };
        sign | without_sign
    }
}

#[cfg(test)]
mod tests {
    use super::*;
    use crate::reference::{fmod, order, Class, BINARY32, BINARY64};
    use std::cmp::Ordering;

    #[test]
    fn edges_stay_few_enough_to_be_squared() {
        for format in [BINARY64, BINARY32] {
            let edges = edges(&format);
            assert!((400..1000).contains(&edges.len()), "{}", edges.len());
            for class in 0..5 {
                let met = |&&x: &&u64| format.classify(x) as u64 == class;
                assert!(edges.iter().filter(met).count() > 1, "class {class}");
            }
            for n in [1, 2, 3, 10] {
                let units = &crate::reference::natural::Natural::from(n) << format.one_log2();
                assert_eq!(integer(&format, n), format.encode(&units));
            }
        }
    }

    /// At least one draw in ten is a pair of the kind that it is there for.
    fn share(draw: fn(&mut Random, &Format) -> [u64; 2], met: fn(&Format, u64, u64) -> bool) {
        for format in [BINARY64, BINARY32] {
            let mut random = Random::new(5);
            let met = (0..10_000).filter(|_| {
                let [x, y] = draw(&mut random, &format);
                let fit = |x| format.fabs(x) < format.sign_bit();
                assert!(fit(x) && fit(y), "{x:x} {y:x}");
                met(&format, x, y)
            });
            let met = met.count();
            assert!(met > 1000, "{met} of 10000 at {}", format.width());
        }
    }

    fn finite(format: &Format, x: u64) -> bool {
        !matches!(format.classify(x), Class::Nan | Class::Infinite)
    }

    #[test]
    fn many_remainders_are_zero() {
        share(Random::multiples, |format, x, y| {
            finite(format, x) && format.fabs(fmod::fmod(format, x, y).words[0]) == 0
        });
    }

    #[test]
    fn many_quotients_are_long() {
        share(Random::far_exponents, |format, x, y| {
            let apart = format.exponent_field(x) as i64 - format.exponent_field(y) as i64;
            finite(format, x) && finite(format, y) && apart > 2 * format.fraction_bits as i64
        });
    }

    #[test]
    fn many_exponents_are_near() {
        share(Random::near_exponents, |format, x, y| {
            let [a, b] = [x, y].map(|x| format.exponent_field(x));
            finite(format, x) && finite(format, y) && a.abs_diff(b) <= format.fraction_bits as u64
        });
    }

    #[test]
    fn many_are_subnormal() {
        share(Random::small, |format, x, y| {
            [x, y].map(|x| format.classify(x)) == [Class::Subnormal; 2]
        });
    }

    #[test]
    fn many_are_equal_or_beside_each_other() {
        share(Random::neighbours, |format, x, y| {
            format.first_nan(x, y).is_none() && order::compare(format, x, y) == Ordering::Equal
        });
        share(Random::neighbours, |format, x, y| {
            format.first_nan(x, y).is_none() && format.rank(x).abs_diff(format.rank(y)) == 1
        });
    }

    #[test]
    fn many_hold_a_nan_a_zero_or_an_infinity() {
        share(Random::with_special, |format, x, y| {
            format.first_nan(x, y).is_some()
        });
        share(Random::with_special, |format, x, y| {
            [x, y].iter().any(|&x| format.classify(x) == Class::Zero)
        });
        share(Random::with_special, |format, x, y| {
            let infinite = |&x: &u64| format.classify(x) == Class::Infinite;
            [x, y].iter().any(infinite)
        });
    }

    /// fmin, fmax and nextafter have a rule for them alone. Every pair of edges is tried, so the edges
    /// need each zero once.
    #[test]
    fn each_zero_is_tried_against_each() {
        for format in [BINARY64, BINARY32] {
            let zeros = [0, format.sign_bit()];
            let edges = edges(&format);
            assert!(zeros.iter().all(|zero| edges.contains(zero)));
            let mut random = Random::new(6);
            let mut met = [[0; 2]; 2];
            for _ in 0..1_000_000 {
                let [x, y] = random.pair(&format);
                if zeros.contains(&x) && zeros.contains(&y) {
                    let [x, y] = [x, y].map(|zero| format.is_negative(zero) as usize);
                    met[x][y] += 1;
                }
            }
            let least = met.as_flattened().iter().min();
            assert!(least >= Some(&100), "{met:?} at {}", format.width());
        }
    }
}
