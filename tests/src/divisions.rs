//! Pairs of patterns of which the first is divided by the second and the quotient rounded to the
//! nearest integer: quotients that are halves and integers, or lie right beside them, with exponents
//! near and far apart; and what such a pair is, so that a test can tell what it met.

use crate::answer::Answer;
use crate::patterns::Random;
use crate::reference::natural::Natural;
use crate::reference::short::{pack, split};
use crate::reference::{Class, Format};

/// Divisors of all sizes, each with the first multiples of its half and the patterns beside them, in
/// all signs.
pub fn edges(format: &Format) -> Vec<[u64; 2]> {
    let mut edges = Vec::new();
    for y in divisors(format) {
        for count in 1..=17 {
            let (half, _) = (&format.magnitude(y) * count).div_rem_power_of_two(1);
            let x = at_most(format, &half);
            for x in [x.saturating_sub(1), x, (x + 1).min(format.infinity() - 1)] {
                for [x_sign, y_sign] in [[0, 0], [0, 1], [1, 0], [1, 1]] {
                    let signed = |pattern, sign: u64| pattern | (sign * format.sign_bit());
                    edges.push([signed(x, x_sign), signed(y, y_sign)]);
                }
            }
        }
    }
    edges
}

/// Numbers above zero of few and of many digits, from the smallest to the largest.
fn divisors(format: &Format) -> Vec<u64> {
    let field_size = 1 << format.fraction_bits;
    let (half, ones) = (field_size / 2, field_size - 1);
    let largest = format.largest_exponent_field();
    let fields = [0, 1, 2, format.bias(), largest - 5, largest - 1];
    let fractions = [0, 1, 2, 3, half, half + 1, ones - 1, ones];
    let every = fields.map(|field| fractions.map(|fraction| field * field_size + fraction));
    let mut divisors = every.concat();
    divisors.retain(|&y| y != 0);
    divisors
}

/// The sign-less pattern of the largest number that is not above so many units.
fn at_most(format: &Format, units: &Natural) -> u64 {
    if units.size() > format.infinity_log2() {
        return format.infinity() - 1;
    }
    let spare = units.size().saturating_sub(format.fraction_bits + 1);
    let (digits, _) = units.div_rem_power_of_two(spare);
    pack(format, digits.to_u64().expect("a significand"), spare)
}

impl Random {
    /// Two patterns to divide by each other: as other functions have them, or with a quotient at or
    /// beside a half or an integer.
    pub fn division(&mut self, format: &Format) -> [u64; 2] {
        let [x, y] = match self.below(16) {
            0..=4 => return self.pair(format),
            5 => return self.with_special(format),
            6..=9 => self.half_multiple(format),
            10 | 11 => self.about_half_multiple(format),
            12 | 13 => self.chosen_residue(format),
            _ => self.small_quotient(format),
        };
        let signs = self.word();
        let signed = |pattern, bit: u32| pattern | ((signs >> bit & 1) * format.sign_bit());
        [signed(x, 0), signed(y, 1)]
    }

    /// So many places that numbers of this many digits may be moved up and stay finite: none or few
    /// at times, where numbers are subnormal.
    fn places_up(&mut self, format: &Format, digits: u32) -> u32 {
        let most = (format.infinity_log2() - digits) as u64;
        let places = match self.below(4) {
            0 => 0,
            1 => self.below(most.min(format.fraction_bits as u64) + 1),
            _ => self.below(most + 1),
        };
        places as u32
    }

    /// x a multiple of half of y, or a pattern beside one. An odd multiple needs all of its digits, so
    /// the exponents are no farther apart than a format has digits.
    fn half_multiple(&mut self, format: &Format) -> [u64; 2] {
        let most = format.fraction_bits + 1;
        let of_half = 1 + self.below(most as u64) as u32;
        let half = self.of_digits(of_half);
        let of_count = 1 + self.below((most - of_half).max(1) as u64) as u32;
        let count = self.of_digits(of_count);
        let places = self.places_up(format, of_half + of_count + 1);
        let x = pack(format, half * count, places);
        let y = pack(format, half, places + 1);
        [self.beside(x), y]
    }

    /// x the number right below some multiple of half of y, or a pattern beside it. Both may have all
    /// their digits.
    fn about_half_multiple(&mut self, format: &Format) -> [u64; 2] {
        let all_digits = format.fraction_bits + 1;
        let of_half = 1 + self.below(all_digits as u64) as u32;
        let half = self.of_digits(of_half);
        let of_count = 1 + self.below(all_digits as u64) as u32;
        let count = self.of_digits(of_count);
        let product = half as u128 * count as u128;
        let spare = (128 - product.leading_zeros()).saturating_sub(all_digits);
        let places = self.places_up(format, of_half + of_count + 1);
        let x = pack(format, (product >> spare) as u64, places + spare);
        let y = pack(format, half, places + 1);
        [self.beside(x), y]
    }

    /// This pattern, or one of the two before it or after it.
    fn beside(&mut self, x: u64) -> u64 {
        match self.below(8) {
            0 => x + 1,
            1 => x - 1,
            2 => x + 2,
            3 => x.saturating_sub(2),
            _ => x,
        }
    }

    /// Exponents at any distance, and what is left of x by y is nothing, the least that there can be,
    /// or the nearest to half of y that there is, on either side; or anything. Found backwards: by an
    /// odd b, a·2^k leaves r where a leaves r·2^-k, and 2^-1 is (b + 1)/2.
    fn chosen_residue(&mut self, format: &Format) -> [u64; 2] {
        let all_digits = format.fraction_bits + 1;
        let of_divisor = match self.below(2) {
            0 => all_digits,
            _ => 2 + self.below(all_digits as u64 - 1) as u32,
        };
        let b = self.of_digits(of_divisor) | 1;
        let farthest = (format.infinity_log2() - all_digits) as u64;
        let apart = match self.below(4) {
            0 => 1 + self.below(farthest) as u32,
            _ => 1 + self.below(farthest.min(4 * all_digits as u64)) as u32,
        };
        let residue = match self.below(8) {
            0..=2 => b / 2,
            3 | 4 => b / 2 + 1,
            5 => self.one_of(&[1, b - 1]),
            6 => 0,
            _ => self.below(b),
        };
        let least = product_modulo(residue, power_modulo(b / 2 + 1, apart, b), b);
        // As many times b besides as leave no digit too many; b itself, where nothing is to be left.
        let most = ((1 << all_digits) - 1 - least) / b;
        let a = least + b * self.below(most + 1);
        let a = if a == 0 { b } else { a };
        let room = format.infinity_log2() - all_digits - apart;
        let places = self.below(room as u64 + 1) as u32;
        [pack(format, a, places + apart), pack(format, b, places)]
    }

    /// Exponents no more than two apart, y's mostly the larger: n is 0, 1 or 2.
    fn small_quotient(&mut self, format: &Format) -> [u64; 2] {
        let largest = format.largest_exponent_field();
        let field = match self.below(4) {
            0 => self.below(4),
            _ => self.below(largest),
        };
        let other = field.saturating_sub(self.below(3));
        let [x, y] = [other, field].map(|field| format.fabs(self.in_field(format, field)));
        match self.below(8) {
            0 => [y, y],
            1 => [y, x.max(1)],
            _ => [x, y.max(1)],
        }
    }
}

/// a·b modulo a number.
fn product_modulo(a: u64, b: u64, modulus: u64) -> u64 {
    (a as u128 * b as u128 % modulus as u128) as u64
}

/// A power modulo a number, by squares.
fn power_modulo(base: u64, exponent: u32, modulus: u64) -> u64 {
    let (mut power, mut square) = (1 % modulus, base);
    let mut exponent = exponent;
    while exponent > 0 {
        if exponent % 2 == 1 {
            power = product_modulo(power, square, modulus);
        }
        square = product_modulo(square, square, modulus);
        exponent /= 2;
    }
    power
}

/// What a division is. One may be of several sorts.
#[derive(Clone, Copy, Debug, PartialEq, Eq, PartialOrd, Ord)]
pub enum Sort {
    /// x/y is a half of an odd number: the even integer is the smaller or the larger in magnitude.
    HalfDown,
    HalfUp,
    /// x lies within two units of its last place from such a half, the nearest integer being the
    /// smaller or the larger.
    BesideHalfDown,
    BesideHalfUp,
    /// x/y is an integer, x above or below zero.
    Multiple,
    NegativeMultiple,
    /// x lies as near to a multiple of y.
    BesideMultiple,
    /// The exponents are farther apart than twice the digits of the fraction.
    FarApart,
    /// And what is left lies within two units of y's last place from half of y.
    FarApartBesideHalf,
    /// x is below y in magnitude: n is 0 or 1.
    BelowHalf,
    AboveHalf,
    /// y is subnormal, x isn't; or both are.
    SubnormalDivisor,
    BothSubnormal,
    /// The signs of finite operands other than zero.
    BothPositive,
    OnlyXNegative,
    OnlyYNegative,
    BothNegative,
    /// The operands that have no division.
    InfiniteX,
    InfiniteY,
    ZeroX,
    ZeroY,
    NanX,
    NanY,
    TwoNans,
}

impl Sort {
    pub const ALL: [Sort; 24] = [
        Sort::HalfDown,
        Sort::HalfUp,
        Sort::BesideHalfDown,
        Sort::BesideHalfUp,
        Sort::Multiple,
        Sort::NegativeMultiple,
        Sort::BesideMultiple,
        Sort::FarApart,
        Sort::FarApartBesideHalf,
        Sort::BelowHalf,
        Sort::AboveHalf,
        Sort::SubnormalDivisor,
        Sort::BothSubnormal,
        Sort::BothPositive,
        Sort::OnlyXNegative,
        Sort::OnlyYNegative,
        Sort::BothNegative,
        Sort::InfiniteX,
        Sort::InfiniteY,
        Sort::ZeroX,
        Sort::ZeroY,
        Sort::NanX,
        Sort::NanY,
        Sort::TwoNans,
    ];
}

/// How often each sort of division came up, and each answer of remquo from -7 to 7.
#[derive(Clone, Default)]
pub struct Met {
    sorts: [u64; Sort::ALL.len()],
    quotients: [u64; 15],
}

impl Met {
    /// Adds a pair of which remquo answers this.
    pub fn add(&mut self, format: &Format, x: u64, y: u64, remquo: Answer) {
        let mut met = |sort: Sort| self.sorts[sort as usize] += 1;
        match (format.classify(x), format.classify(y)) {
            (Class::Nan, Class::Nan) => return met(Sort::TwoNans),
            (Class::Nan, _) => return met(Sort::NanX),
            (_, Class::Nan) => return met(Sort::NanY),
            (Class::Infinite, _) => return met(Sort::InfiniteX),
            (_, Class::Zero) => return met(Sort::ZeroY),
            (_, Class::Infinite) => return met(Sort::InfiniteY),
            (Class::Zero, _) => return met(Sort::ZeroX),
            (Class::Subnormal, Class::Subnormal) => met(Sort::BothSubnormal),
            (Class::Normal, Class::Subnormal) => met(Sort::SubnormalDivisor),
            _ => {}
        }
        met(match [x, y].map(|x| format.is_negative(x)) {
            [false, false] => Sort::BothPositive,
            [true, false] => Sort::OnlyXNegative,
            [false, true] => Sort::OnlyYNegative,
            [true, true] => Sort::BothNegative,
        });
        let [word, quotient] = remquo.words;
        self.quotients[(quotient as i64 + 7) as usize] += 1;
        self.add_rest(format, x, y, word);
    }

    /// Adds a pair of finite numbers other than zero, of which this is left.
    fn add_rest(&mut self, format: &Format, x: u64, y: u64, word: u64) {
        let mut met = |sort: Sort| self.sorts[sort as usize] += 1;
        let negative = format.is_negative(x);
        let turned = format.is_negative(word) != negative;
        let [x, y, rest] = [x, y, word].map(|x| format.fabs(x));
        let [(_, of_x), (_, of_y)] = [x, y].map(|x| split(format, x));
        let from_half = from_half(format, y, rest);
        let apart = of_x as i32 - of_y as i32;
        let digits = format.fraction_bits as i32;
        // Two units of x's last place, in y's: near an integer and near a half are still far from
        // each other.
        let is_beside = |distance: Distance| apart < digits - 10 && distance.is_within(2, apart);
        let is_far = apart > 2 * digits;
        if from_half == Distance::ZERO {
            met(if turned { Sort::HalfUp } else { Sort::HalfDown });
        } else if is_beside(from_half) {
            met(match turned {
                true => Sort::BesideHalfUp,
                false => Sort::BesideHalfDown,
            });
        }
        if rest == 0 {
            met(match negative {
                true => Sort::NegativeMultiple,
                false => Sort::Multiple,
            });
        } else if apart < digits - 10 && rest <= pack(format, 2, of_x) {
            met(Sort::BesideMultiple);
        }
        if is_far {
            met(Sort::FarApart);
        }
        if is_far && from_half != Distance::ZERO && from_half.is_within(2, 0) {
            met(Sort::FarApartBesideHalf);
        }
        if x < y {
            met(match turned {
                true => Sort::AboveHalf,
                false => Sort::BelowHalf,
            });
        }
    }

    pub fn join(&mut self, other: Met) {
        for (all, count) in self.sorts.iter_mut().zip(other.sorts) {
            *all += count;
        }
        for (all, count) in self.quotients.iter_mut().zip(other.quotients) {
            *all += count;
        }
    }

    /// Stops where a sort or an answer came up less often than this.
    pub fn expect(&self, format: &Format, least: u64) {
        let width = format.width();
        for sort in Sort::ALL {
            let count = self.sorts[sort as usize];
            println!("{width} bits, {sort:?}: {count}");
            assert!(count >= least, "{width} bits, {sort:?}: {count}");
        }
        for (quotient, count) in (-7..).zip(self.quotients) {
            println!("{width} bits, quotient {quotient}: {count}");
            assert!(count >= least, "{width} bits, quotient {quotient}: {count}");
        }
    }
}

/// How far a number lies from half of y, in quarters of the unit of y's last place.
#[derive(Clone, Copy, PartialEq, Eq)]
struct Distance(u64);

impl Distance {
    const ZERO: Distance = Distance(0);

    /// Whether it is at most so many units of a last place that stands this many places above y's.
    fn is_within(self, units: u64, places: i32) -> bool {
        let quarters = 4 * units;
        let most = match places {
            0.. => quarters << places,
            _ => quarters.checked_shr(places.unsigned_abs()).unwrap_or(0),
        };
        self.0 <= most
    }
}

/// How far what is left, at most half of y, lies from that half. Farther than a quarter of y it is
/// as far as can be.
fn from_half(format: &Format, y: u64, rest: u64) -> Distance {
    let (b, of_y) = split(format, y);
    let (r, of_rest) = split(format, rest);
    match of_y - of_rest {
        places @ 0..=2 => Distance(2 * b - ((4 * r) >> places)),
        _ => Distance(u64::MAX),
    }
}

/// Whether what is left, at most half of y, is half of it.
pub fn is_half(format: &Format, y: u64, rest: u64) -> bool {
    from_half(format, format.fabs(y), format.fabs(rest)) == Distance::ZERO
}

#[cfg(test)]
mod tests {
    use super::*;
    use crate::reference::{remainder, BINARY32, BINARY64};

    #[test]
    fn edges_are_at_halves_and_beside_them() {
        for format in [BINARY64, BINARY32] {
            let mut met = Met::default();
            for [x, y] in edges(&format) {
                let fit = |x| format.fabs(x) < format.infinity();
                assert!(fit(x) && fit(y), "{x:x} {y:x}");
                met.add(&format, x, y, remainder::remquo(&format, x, y));
            }
            for sort in [
                Sort::HalfDown,
                Sort::HalfUp,
                Sort::BesideHalfDown,
                Sort::BesideHalfUp,
                Sort::Multiple,
                Sort::NegativeMultiple,
                Sort::BesideMultiple,
                Sort::SubnormalDivisor,
                Sort::BothSubnormal,
                Sort::BelowHalf,
                Sort::AboveHalf,
            ] {
                let count = met.sorts[sort as usize];
                assert!(count >= 100, "{sort:?}: {count}");
            }
            assert!(met.quotients.iter().all(|&count| count >= 100));
        }
    }

    /// Draws that missed the halves would leave the rule for them untried.
    #[test]
    fn random_divisions_are_of_every_sort() {
        for format in [BINARY64, BINARY32] {
            let mut random = Random::new(7);
            let mut met = Met::default();
            for _ in 0..200_000 {
                let [x, y] = random.division(&format);
                let fit = |x| format.fabs(x) < format.sign_bit();
                assert!(fit(x) && fit(y), "{x:x} {y:x}");
                met.add(&format, x, y, remainder::remquo(&format, x, y));
            }
            met.expect(&format, 100);
        }
    }

    /// A sort that was counted for other pairs would say nothing. Those of 64 bits, by hand.
    #[test]
    #[rustfmt::skip]
    fn sorts_are_what_they_say() {
        use Sort::*;
        for (x, y, expected) in [
            (1.0, 2.0, &[HalfDown, BothPositive, BelowHalf][..]),
            (-3.0, 2.0, &[HalfUp, OnlyXNegative]),
            (5.0, -2.0, &[HalfDown, OnlyYNegative]),
            (-3.0f64.next_up(), -2.0, &[BesideHalfUp, BothNegative]),
            (3.0f64.next_down(), 2.0, &[BesideHalfDown, BothPositive]),
            (5.0f64.next_up().next_up(), 2.0, &[BesideHalfUp, BothPositive]),
            (5.0f64.next_up().next_up().next_up(), 2.0, &[BothPositive]),
            (6.0, 2.0, &[Multiple, BothPositive]),
            (-6.0, 2.0, &[NegativeMultiple, OnlyXNegative]),
            (6.0f64.next_down(), 2.0, &[BesideMultiple, BothPositive]),
            (6.5, 2.0, &[BothPositive]),
            (2f64.powi(1000), 7.0, &[BothPositive, FarApart]),
            (1e-300, 3.0, &[BothPositive, BelowHalf]),
            (2.0, 3.0, &[BothPositive, AboveHalf]),
            (1.0, f64::from_bits(3), &[BothPositive, FarApart, SubnormalDivisor, FarApartBesideHalf]),
            (f64::from_bits(7), f64::from_bits(3), &[BothPositive, BothSubnormal, BesideHalfDown, BesideMultiple]),
            (f64::INFINITY, 0.0, &[InfiniteX]),
            (1.0, f64::NEG_INFINITY, &[InfiniteY]),
            (-0.0, 1.0, &[ZeroX]),
            (0.0, -0.0, &[ZeroY]),
            (f64::NAN, 1.0, &[NanX]),
            (f64::INFINITY, f64::NAN, &[NanY]),
            (f64::NAN, f64::NAN, &[TwoNans]),
        ] {
            let mut met = Met::default();
            let [a, b] = [x, y].map(f64::to_bits);
            met.add(&BINARY64, a, b, remainder::remquo(&BINARY64, a, b));
            for sort in Sort::ALL {
                let count = met.sorts[sort as usize];
                assert_eq!(count, expected.contains(&sort) as u64, "{x:e} {y:e} {sort:?}");
            }
        }
    }
}
