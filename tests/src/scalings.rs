//! Patterns and powers of two that ldexp is tried on. The power n stands as its two's complement.

use crate::patterns::Random;
use crate::reference::Format;

/// Every n from -2300 to 2300, which takes each of these patterns from below the smallest number to
/// beyond the largest, and the n where a narrower type would go wrong.
pub fn powers() -> Vec<i64> {
    let mut powers: Vec<i64> = (-2300..=2300).collect();
    for digit in 11..64 {
        let power = 1i64 << digit.min(62);
        let beside = |n: i64| [n - 1, n, n + 1, n + 1074, n - 1075];
        powers.extend(beside(power).into_iter().chain(beside(-power)));
    }
    powers.extend((0..3).flat_map(|n| [i64::MAX - n, i64::MIN + n]));
    powers.extend((2000..2200).flat_map(|n| [i64::MAX - n, i64::MIN + n]));
    powers.sort_unstable();
    powers.dedup();
    powers
}

/// Patterns whose digits make halves, and numbers beside halves, when they are scaled down: one
/// digit, two digits in a row and a run of digits, ending at every place, among subnormal and
/// normal numbers. Also the ends of the first and last exponent fields, infinities and NaNs.
pub fn edges(format: &Format) -> Vec<u64> {
    let field_size = 1 << format.fraction_bits;
    let (half, ones) = (field_size / 2, field_size - 1);
    let (bias, largest) = (format.bias(), format.largest_exponent_field());
    let mut edges = Vec::new();
    for field in [0, 1, 2, bias, largest - 1, largest] {
        for fraction in [0, 1, half - 1, half, half + 1, ones - 1, ones] {
            let x = field * field_size + fraction;
            edges.extend([x, format.negate(x)]);
        }
    }
    for field in [0, bias] {
        for place in 0..format.fraction_bits {
            let digit = 1 << place;
            for fraction in [digit, 3 * digit % field_size, ones - digit + 1] {
                let x = field * field_size + fraction;
                edges.push(if place % 2 == 0 { x } else { format.negate(x) });
            }
        }
    }
    edges.sort_unstable();
    edges.dedup();
    edges
}

impl Random {
    /// A pattern, and a power that does something to it.
    pub fn scaling(&mut self, format: &Format) -> [u64; 2] {
        let (x, n) = match self.below(8) {
            0 => (self.pattern(format), self.word() as i64),
            1 => (self.uniform(format), self.any_shift(format)),
            2 => (self.subnormal(format), self.any_shift(format)),
            3..=5 => self.near_half(format),
            6 => self.near_infinity(format),
            _ => {
                let n = match self.below(3) {
                    0 => self.word() as i64 >> self.below(64),
                    1 => self.within(-70..71),
                    _ => self.any_shift(format),
                };
                (self.special(format), n)
            }
        };
        [x, n as u64]
    }

    /// A power that takes some number from one end of the format to the other, or less far.
    fn any_shift(&mut self, format: &Format) -> i64 {
        let most = format.infinity_log2() as i64 + 3;
        self.within(-most..most + 1)
    }

    /// A number that is scaled down to a subnormal one and loses digits: a half, or a number beside
    /// one, in two of three.
    pub fn near_half(&mut self, format: &Format) -> (u64, i64) {
        let field = self.below(format.largest_exponent_field());
        let x = self.in_field(format, field);
        let lost = 1 + self.below(format.fraction_bits as u64 + 2) as i64;
        let n = 1 - (field.max(1) as i64) - lost;
        // What is lost of the significand is half of its last place when only its top digit is 1.
        let bits = (lost as u32).min(format.fraction_bits);
        let lost_top = (1 << lost >> 1) % (1 << format.fraction_bits);
        let half = (x >> bits << bits) | lost_top;
        let fraction = format.fraction(half);
        let x = match self.below(6) {
            0 | 1 => x,
            4 if fraction < (1 << format.fraction_bits) - 1 => half + 1,
            5 if fraction > 0 => half - 1,
            _ => half,
        };
        (x, n)
    }

    /// A number that is scaled up to the largest exponents, or one or two beyond them.
    pub fn near_infinity(&mut self, format: &Format) -> (u64, i64) {
        let largest = format.largest_exponent_field() as i64;
        let field = self.below(format.largest_exponent_field());
        let x = self.in_field(format, field);
        let leading = format.fabs(x).max(1).ilog2() as i64;
        let first_field = if field == 0 {
            leading - format.fraction_bits as i64 + 1
        } else {
            field as i64
        };
        (x, largest - first_field + self.within(-3..3))
    }
}

#[cfg(test)]
mod tests {
    use super::*;
    use crate::reference::natural::Natural;
    use crate::reference::{ldexp, Class, BINARY32, BINARY64};

    #[test]
    fn powers_hold_every_shift_and_both_ends() {
        let powers = powers();
        for n in (-2300..=2300).chain([i64::MIN, i64::MAX, 1 << 32, -(1 << 32), 1 << 31]) {
            assert!(powers.contains(&n), "{n}");
        }
    }

    /// What is lost of x when it is divided by 2^-n, against one half of a unit.
    fn is_half(format: &Format, x: u64, n: i64) -> bool {
        let Ok(down) = u32::try_from(-n) else {
            return false;
        };
        let (_, rest) = format.magnitude(x).div_rem_power_of_two(down);
        down > 0 && rest == Natural::power_of_two(down - 1)
    }

    #[test]
    fn many_scaled_down_are_halves() {
        for format in [BINARY64, BINARY32] {
            let mut random = Random::new(6);
            let mut halves = [0; 2];
            for _ in 0..10_000 {
                let (x, n) = random.near_half(&format);
                assert!(format.fabs(x) < format.sign_bit());
                let answer = ldexp::ldexp(&format, x, n);
                if is_half(&format, x, n) {
                    // To even, from a smaller or a larger number.
                    let back = format.magnitude(answer.words[0]);
                    let back = &back << (-n) as u32;
                    halves[(back > format.magnitude(x)) as usize] += 1;
                }
            }
            assert!(halves.iter().all(|&count| count > 1000), "{halves:?}");
        }
    }

    #[test]
    fn some_scaled_up_are_infinite_and_some_not() {
        for format in [BINARY64, BINARY32] {
            let mut random = Random::new(7);
            let mut counts = [0; 2];
            for _ in 0..10_000 {
                let (x, n) = random.near_infinity(&format);
                let answer = ldexp::ldexp(&format, x, n);
                let infinite = format.classify(answer.words[0]) == Class::Infinite;
                let field = format.exponent_field(answer.words[0]);
                if format.fabs(x) != 0 {
                    assert!(field + 3 >= format.largest_exponent_field(), "{x:x} {n}");
                    counts[infinite as usize] += 1;
                }
            }
            assert!(counts.iter().all(|&count| count > 3000), "{counts:?}");
        }
    }

    #[test]
    fn edges_are_halves_at_every_place() {
        for format in [BINARY64, BINARY32] {
            let edges = edges(&format);
            for place in 0..format.fraction_bits {
                let halves = |&&x: &&u64| {
                    let finite = format.exponent_field(x) < format.largest_exponent_field();
                    finite && is_half(&format, x, -(place as i64) - 1)
                };
                assert!(edges.iter().filter(halves).count() > 1, "place {place}");
            }
        }
    }
}
