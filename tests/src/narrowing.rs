//! Patterns that are rounded to a narrower format, where a mistake would sit and at random.

use crate::patterns::{self, Random};
use crate::reference::natural::Natural;
use crate::reference::Format;

/// So many units of the narrower format and one half of a unit more or not, as a sign-less pattern
/// of the wide one, which has all of them.
fn widened(wide: &Format, narrow: &Format, half_units: &Natural) -> u64 {
    wide.encode(&(half_units << (wide.one_log2() - narrow.one_log2() - 1)))
}

/// Twice the units of a sign-less pattern of the narrow format, infinity counted as the number that
/// would come after the largest.
fn half_units(narrow: &Format, x: u64) -> Natural {
    if x == narrow.infinity() {
        Natural::power_of_two(narrow.infinity_log2() + 1)
    } else {
        &narrow.magnitude(x) * 2
    }
}

/// What is halfway from a sign-less finite pattern of the narrow format to the next one.
fn halfway(wide: &Format, narrow: &Format, x: u64) -> u64 {
    let both = &half_units(narrow, x) + &half_units(narrow, x + 1);
    let (middle, rest) = both.div_rem_power_of_two(1);
    assert!(rest.is_zero());
    widened(wide, narrow, &middle)
}

/// The edges of the wide format itself, and, of both signs: every number of the narrow format and
/// what is halfway from it to the next, the number past its largest one too, each with its
/// neighbours; NaNs with every payload that the narrow format can keep, and nothing, little or all
/// below it.
pub fn edges(wide: &Format, narrow: &Format) -> Vec<u64> {
    let mut edges = patterns::edges(wide);
    let mut put = |x: u64| edges.extend([x, wide.negate(x)]);
    for x in 0..=narrow.infinity() {
        let exact = widened(wide, narrow, &half_units(narrow, x));
        (exact.saturating_sub(1)..=exact + 1).for_each(&mut put);
        if x < narrow.infinity() {
            let halfway = halfway(wide, narrow, x);
            (halfway - 1..=halfway + 1).for_each(&mut put);
        }
    }
    let below = wide.fraction_bits - narrow.fraction_bits;
    for kept in 0..1 << narrow.fraction_bits {
        for lost in [0, 1, 1 << (below - 1), (1 << below) - 1] {
            put(wide.infinity() | kept << below | lost);
        }
    }
    edges.sort_unstable();
    edges.dedup();
    edges
}

impl Random {
    /// A pattern to be rounded to the narrow format. One in four is any pattern; the others have an
    /// exponent of the narrow format, or lie some powers of two beyond its ends, and most of these
    /// are a number of it, halfway between two, or right beside one of these.
    pub fn narrowed(&mut self, wide: &Format, narrow: &Format) -> u64 {
        if self.below(4) == 0 {
            return self.pattern(wide);
        }
        let (bias, smallest) = (wide.bias() as i64, narrow.one_log2() as i64);
        let past_largest = narrow.bias() as i64 + 1;
        let exponent = self.within(-smallest - 3..past_largest + 2);
        let x = self.in_field(wide, (bias + exponent) as u64);
        // The fraction bits below half a unit in the narrow format's last place.
        let lost = wide.fraction_bits - narrow.fraction_bits;
        let subnormal = (1 - narrow.bias() as i64 - exponent).max(0) as u32;
        self.near_multiple(x, (lost - 1 + subnormal).min(wide.fraction_bits))
    }
}

#[cfg(test)]
mod tests {
    use super::*;
    use crate::reference::{Class, BINARY16, BINARY32};
    use std::collections::HashSet;

    #[test]
    fn edges_hold_every_boundary_of_halves() {
        let edges: HashSet<u64> = edges(&BINARY32, &BINARY16).into_iter().collect();
        for x in [
            0x33000000, // 2^-25, halfway from 0 to the smallest half
            0x33800000, // 2^-24, the smallest half
            0x33c00000, // 1.5 · 2^-24
            0x387fc000, // the largest subnormal half
            0x387fe000, // halfway from it to the smallest normal one
            0x38800000, // 2^-14, the smallest normal half
            0x3f801000, // halfway from 1 to the next
            0x477fe000, // 65,504, the largest half
            0x477ff000, // 65,520, halfway from it to what would come next
            0x47800000, // 65,536, which would come next
        ] {
            for x in [x - 1, x, x + 1] {
                assert!(edges.contains(&x), "{x:x}");
                assert!(edges.contains(&BINARY32.negate(x)), "{x:x} negated");
            }
        }
        for x in [
            0, 1, 0x7f7fffff, 0x7f800000, 0x7f800001, 0x7f802000, 0x7f801fff,
        ] {
            assert!(edges.contains(&x), "{x:x}");
        }
        // Every half and every one halfway, each thrice and of both signs, are all different.
        assert!(edges.len() > 2 * 6 * 31_743, "{}", edges.len());
        assert!(edges
            .iter()
            .all(|&x| BINARY32.fabs(x) < BINARY32.sign_bit()));
    }

    /// What half of its last place in halves is for x, in its fraction's bits: odd multiples of it
    /// are halfway between two halves.
    fn is_halfway(x: u64) -> bool {
        let exponent = BINARY32.exponent_field(x) as i64 - BINARY32.bias() as i64;
        let bits = 12 + (-14 - exponent).max(0);
        let significand = BINARY32.fraction(x) | 1 << 23;
        (-25..16).contains(&exponent) && significand % (1 << (bits + 1)) == 1 << bits
    }

    #[test]
    fn random_ones_are_halfway_and_beside_it_in_every_field() {
        let mut random = Random::new(5);
        let patterns: Vec<u64> = (0..200_000)
            .map(|_| random.narrowed(&BINARY32, &BINARY16))
            .collect();
        for field in 127 - 25..127 + 16 {
            let of_field = || {
                let of_field = |&&x: &&u64| BINARY32.exponent_field(x) == field;
                patterns.iter().filter(of_field)
            };
            let halfway = of_field().filter(|&&x| is_halfway(x)).count();
            let below = of_field().filter(|&&x| is_halfway(x + 1)).count();
            let above = of_field().filter(|&&x| is_halfway(x - 1)).count();
            // From 2^-25 to the next power of two, 2^-25 alone is halfway, and nothing below it.
            assert!(halfway > 100 && above > 100, "{field} {halfway} {above}");
            assert!(below > 100 || field == 127 - 25, "{field} {below}");
        }
        let of_class = |class| {
            let of_class = |&&x: &&u64| BINARY32.classify(x) == class;
            patterns.iter().filter(of_class).count()
        };
        assert!(of_class(Class::Nan) > 50 && of_class(Class::Subnormal) > 50);
        assert!(patterns
            .iter()
            .all(|&x| BINARY32.fabs(x) < BINARY32.sign_bit()));
    }
}
