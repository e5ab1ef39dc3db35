//! Exact unsigned whole numbers of any size.
//!
//! A finite f64 is a whole number of units that reaches 2^2098, far beyond the machine's words. The
//! methods are those of school arithmetic: the reference has to be plainly right before it is fast.

use std::cmp::Ordering;
use std::ops::{Add, Mul, Shl, Sub};

/// Limbs of 64 bits, the lowest first. The highest one is never zero, so equal numbers have equal
/// limbs.
#[derive(Clone, Debug, PartialEq, Eq)]
pub struct Natural {
    limbs: Vec<u64>,
}

impl Natural {
    fn from_limbs(mut limbs: Vec<u64>) -> Natural {
        while limbs.last() == Some(&0) {
            limbs.pop();
        }
        Natural { limbs }
    }

    pub fn power_of_two(exponent: u32) -> Natural {
        &Natural::from(1) << exponent
    }

    pub fn is_zero(&self) -> bool {
        self.limbs.is_empty()
    }

    pub fn is_odd(&self) -> bool {
        self.bit(0)
    }

    /// The bit that counts 2^place.
    pub fn bit(&self, place: u32) -> bool {
        let limb = self.limbs.get((place / 64) as usize).unwrap_or(&0);
        limb >> (place % 64) & 1 == 1
    }

    /// The number of binary digits, 0 for zero.
    pub fn size(&self) -> u32 {
        match self.limbs.last() {
            None => 0,
            Some(top) => self.limbs.len() as u32 * 64 - top.leading_zeros(),
        }
    }

    /// The number as a machine word, where it fits.
    pub fn to_u64(&self) -> Option<u64> {
        match self.limbs[..] {
            [] => Some(0),
            [word] => Some(word),
            _ => None,
        }
    }

    /// Quotient and remainder by 2^exponent.
    pub fn div_rem_power_of_two(&self, exponent: u32) -> (Natural, Natural) {
        let whole = ((exponent / 64) as usize).min(self.limbs.len());
        let bits = exponent % 64;
        let (low, high) = self.limbs.split_at(whole);
        let mut remainder = low.to_vec();
        if bits == 0 {
            return (
                Natural::from_limbs(high.to_vec()),
                Natural::from_limbs(remainder),
            );
        }
        let above = |i: usize| high.get(i + 1).map_or(0, |limb| limb << (64 - bits));
        let quotient = (0..high.len())
            .map(|i| high[i] >> bits | above(i))
            .collect();
        if let Some(limb) = high.first() {
            remainder.push(limb % (1 << bits));
        }
        (
            Natural::from_limbs(quotient),
            Natural::from_limbs(remainder),
        )
    }

    /// The power of two in a number other than zero: how many of its lowest digits are 0.
    fn trailing_zeros(&self) -> u32 {
        let zero_limbs = self.limbs.iter().take_while(|&&limb| limb == 0).count();
        zero_limbs as u32 * 64 + self.limbs[zero_limbs].trailing_zeros()
    }

    /// Quotient and remainder by any divisor but zero. The power of two that both numbers hold is
    /// cancelled first, and the remainder multiplied by it again: a·2^k = q·(b·2^k) + r·2^k where
    /// a = q·b + r.
    pub fn div_rem(&self, divisor: &Natural) -> (Natural, Natural) {
        assert!(!divisor.is_zero(), "division by zero");
        if self < divisor {
            return (Natural::from(0), self.clone());
        }
        let shared = self.trailing_zeros().min(divisor.trailing_zeros());
        let (dividend, _) = self.div_rem_power_of_two(shared);
        let (divisor, _) = divisor.div_rem_power_of_two(shared);
        let (quotient, remainder) = match divisor.to_u64() {
            Some(word) => dividend.div_rem_by_limbs(word),
            None => dividend.div_rem_by_digits(&divisor),
        };
        (quotient, &remainder << shared)
    }

    /// Long division by a machine word, a limb at a time from the top.
    fn div_rem_by_limbs(&self, divisor: u64) -> (Natural, Natural) {
        let mut quotient = vec![0; self.limbs.len()];
        let mut remainder = 0;
        for (i, &limb) in self.limbs.iter().enumerate().rev() {
            let partial = (remainder as u128) << 64 | limb as u128;
            quotient[i] = (partial / divisor as u128) as u64;
            remainder = (partial % divisor as u128) as u64;
        }
        (Natural::from_limbs(quotient), Natural::from(remainder))
    }

    /// Long division by any divisor, a binary digit at a time from the top.
    fn div_rem_by_digits(&self, divisor: &Natural) -> (Natural, Natural) {
        let mut quotient = Natural::from(0);
        let mut remainder = Natural::from(0);
        for place in (0..self.size()).rev() {
            quotient = &quotient << 1;
            remainder = &(&remainder << 1) + &Natural::from(self.bit(place) as u64);
            if remainder >= *divisor {
                quotient = &quotient + &Natural::from(1);
                remainder = &remainder - divisor;
            }
        }
        (quotient, remainder)
    }
}

impl From<u64> for Natural {
    fn from(word: u64) -> Natural {
        Natural::from_limbs(vec![word])
    }
}

impl Ord for Natural {
    /// More limbs are more; of equally many, the highest that differ decide.
    fn cmp(&self, other: &Natural) -> Ordering {
        let lengths = self.limbs.len().cmp(&other.limbs.len());
        lengths.then_with(|| self.limbs.iter().rev().cmp(other.limbs.iter().rev()))
    }
}

impl PartialOrd for Natural {
    fn partial_cmp(&self, other: &Natural) -> Option<Ordering> {
        Some(self.cmp(other))
    }
}

impl Add for &Natural {
    type Output = Natural;

    fn add(self, other: &Natural) -> Natural {
        let length = self.limbs.len().max(other.limbs.len());
        let mut limbs = Vec::with_capacity(length + 1);
        let mut carry = 0;
        for i in 0..length {
            let a = *self.limbs.get(i).unwrap_or(&0) as u128;
            let b = *other.limbs.get(i).unwrap_or(&0) as u128;
            let sum = a + b + carry;
            limbs.push(sum as u64);
            carry = sum >> 64;
        }
        limbs.push(carry as u64);
        Natural::from_limbs(limbs)
    }
}

impl Sub for &Natural {
    type Output = Natural;

    /// Stops where the difference would be below zero.
    fn sub(self, other: &Natural) -> Natural {
        assert!(*self >= *other, "a natural number below zero");
        let mut limbs = Vec::with_capacity(self.limbs.len());
        let mut borrow = false;
        for (i, &a) in self.limbs.iter().enumerate() {
            let b = *other.limbs.get(i).unwrap_or(&0);
            let (difference, below) = a.overflowing_sub(b);
            let (difference, still_below) = difference.overflowing_sub(borrow as u64);
            limbs.push(difference);
            borrow = below || still_below;
        }
        Natural::from_limbs(limbs)
    }
}

impl Mul<u64> for &Natural {
    type Output = Natural;

    fn mul(self, factor: u64) -> Natural {
        let mut limbs = Vec::with_capacity(self.limbs.len() + 1);
        let mut carry = 0;
        for &limb in &self.limbs {
            let product = limb as u128 * factor as u128 + carry;
            limbs.push(product as u64);
            carry = product >> 64;
        }
        limbs.push(carry as u64);
        Natural::from_limbs(limbs)
    }
}

impl Mul<&Natural> for &Natural {
    type Output = Natural;

    /// A row for each limb of the factor, moved to its place, and their sum.
    fn mul(self, factor: &Natural) -> Natural {
        let mut product = Natural::from(0);
        for (place, &limb) in factor.limbs.iter().enumerate() {
            if limb != 0 {
                product = &product + &(&(self * limb) << (64 * place as u32));
            }
        }
        product
    }
}

impl Shl<u32> for &Natural {
    type Output = Natural;

    fn shl(self, exponent: u32) -> Natural {
        let (whole, bits) = ((exponent / 64) as usize, exponent % 64);
        let mut limbs = Vec::with_capacity(whole + self.limbs.len() + 1);
        limbs.resize(whole, 0);
        let mut carry = 0;
        for &limb in &self.limbs {
            let wide = (limb as u128) << bits;
            limbs.push(wide as u64 | carry);
            carry = (wide >> 64) as u64;
        }
        limbs.push(carry);
        Natural::from_limbs(limbs)
    }
}

#[cfg(test)]
mod tests {
    use super::*;
    use crate::patterns::Random;

    fn natural(value: u128) -> Natural {
        &(&Natural::from((value >> 64) as u64) << 64) + &Natural::from(value as u64)
    }

    /// Numbers of all sizes below 2^limit, with runs of ones and zeros, where carries and borrows
    /// travel.
    fn samples(limit: u32) -> Vec<u128> {
        let mut random = Random::new(1);
        let mut samples = vec![0, 1, 2, 3];
        for exponent in 1..limit {
            let power = 1u128 << exponent;
            let noise = (random.word() as u128) << 64 | random.word() as u128;
            samples.extend([power - 1, power, power + 1, power | (noise % power)]);
        }
        samples
    }

    #[test]
    fn agrees_with_machine_arithmetic() {
        let samples = samples(100);
        for &a in &samples {
            assert_eq!(natural(a).size(), 128 - a.leading_zeros(), "size of {a}");
            assert_eq!(natural(a).is_odd(), a % 2 == 1, "parity of {a}");
            assert_eq!(natural(a).is_zero(), a == 0, "{a} and zero");
            assert_eq!(natural(a).to_u64(), u64::try_from(a).ok(), "word of {a}");
            assert_eq!(&natural(a) << 27, natural(a << 27), "{a} << 27");
            assert_eq!(&natural(a) * 100_000_007, natural(a * 100_000_007));
            for exponent in 0..128 {
                let (quotient, remainder) = natural(a).div_rem_power_of_two(exponent);
                assert_eq!(quotient, natural(a >> exponent), "{a} / 2^{exponent}");
                assert_eq!(
                    remainder,
                    natural(a % (1 << exponent)),
                    "{a} % 2^{exponent}"
                );
            }
            for &b in &samples {
                assert_eq!(&natural(a) + &natural(b), natural(a + b), "{a} + {b}");
                assert_eq!(natural(a).cmp(&natural(b)), a.cmp(&b), "{a} and {b}");
                if a >= b {
                    assert_eq!(&natural(a) - &natural(b), natural(a - b), "{a} - {b}");
                }
                if let Some(product) = a.checked_mul(b) {
                    assert_eq!(&natural(a) * &natural(b), natural(product), "{a} * {b}");
                }
            }
        }
    }

    #[test]
    fn divides_as_the_machine_does() {
        for &a in samples(100).iter().step_by(3) {
            for &b in samples(100).iter().skip(1).step_by(7) {
                let (quotient, remainder) = natural(a).div_rem(&natural(b));
                assert_eq!(quotient, natural(a / b), "{a} / {b}");
                assert_eq!(remainder, natural(a % b), "{a} % {b}");
            }
        }
    }

    /// The quick ways of the division give what the plain one does, on long numbers too.
    #[test]
    fn divides_as_digit_by_digit() {
        let mut random = Random::new(4);
        for exponent in (0..400).step_by(7) {
            for shift in (0..400).step_by(11) {
                let low = random.word() >> (exponent % 64);
                let a = &(&Natural::from(random.word() | 1) << exponent) + &Natural::from(low);
                let a = &a << (shift / 3);
                for b in [1, 3, random.word() >> 11 | 1, random.word() | 1 << 63] {
                    let b = &Natural::from(b) << shift;
                    assert_eq!(a.div_rem(&b), a.div_rem_by_digits(&b), "{a:?} / {b:?}");
                }
            }
        }
    }

    /// Beyond the machine's words, where only the operations themselves can bear witness.
    #[test]
    fn undoes_its_own_operations() {
        let mut random = Random::new(2);
        for exponent in (0..2100).step_by(13) {
            let power = Natural::power_of_two(exponent);
            assert_eq!(power.size(), exponent + 1);
            assert_eq!((&power - &Natural::from(1)).size(), exponent);

            let a = &(&Natural::from(random.word()) << exponent) + &Natural::from(random.word());
            let (quotient, remainder) = a.div_rem_power_of_two(exponent);
            assert!(remainder < power);
            assert_eq!(&(&quotient << exponent) + &remainder, a);
            assert_eq!(a.div_rem(&power), (quotient, remainder));

            let b = &(&Natural::from(random.word() | 1) << (exponent / 3)) + &Natural::from(5);
            let product = &a * &b;
            assert_eq!(product, &b * &a);
            assert_eq!(product.div_rem(&b), (a.clone(), Natural::from(0)));

            let divisor = random.word() | 1;
            let (quotient, remainder) = a.div_rem(&Natural::from(divisor));
            assert!(remainder < Natural::from(divisor));
            assert_eq!(&(&quotient * divisor) + &remainder, a);
        }
    }

    #[test]
    #[should_panic(expected = "below zero")]
    fn does_not_go_below_zero() {
        let _ = &Natural::power_of_two(64) - &(&Natural::power_of_two(64) + &Natural::from(1));
    }
}
