//! Pairs of finite patterns to add, subtract and multiply: where digits cancel, at ties and beside
//! them, with exponents about as far apart as a fraction has digits, with results that are subnormal
//! or zero, and on both sides of overflow's edge; and what such a pair is, so that a test can tell what
//! it met.

use crate::patterns::Random;
use crate::reference::short::{pack, split};
use crate::reference::Format;

/// Finite patterns of both signs of which every pair is tried: zeros, subnormal numbers, powers of two
/// with neighbours near and far from each other, the last numbers.
pub fn edges(format: &Format) -> Vec<[u64; 2]> {
    let f = format.fraction_bits as u64;
    let (bias, largest) = (format.bias(), format.largest_exponent_field());
    let field_size = 1 << f;
    let half = field_size / 2;
    let mut patterns = Vec::new();
    // With their neighbours, as far apart as a sum keeps anything of the smaller; halves of the least
    // and of the largest exponents, whose products lie at the ends.
    for field in [
        0,
        1,
        2,
        f - 1,
        f,
        f + 1,
        f + 2,
        f + 4,
        f + 5,
        bias / 2,
        bias / 2 + 1,
    ] {
        for field in [field, largest - 1 - field] {
            let fractions = [0, 1, half, field_size - 1];
            patterns.extend(fractions.map(|fraction| field * field_size + fraction));
        }
    }
    for field in [
        bias - f - 2,
        bias - f - 1,
        bias - f,
        bias - 1,
        bias,
        bias + 1,
    ] {
        let fractions = [0, 1, 2, half - 1, half, half + 1, field_size - 1];
        patterns.extend(fractions.map(|fraction| field * field_size + fraction));
    }
    patterns.extend((1..=4).flat_map(|n| [n, field_size - n, format.infinity() - n]));
    let negated: Vec<u64> = patterns.iter().map(|&x| format.negate(x)).collect();
    patterns.extend(negated);
    patterns.sort_unstable();
    patterns.dedup();
    let with_every = |&x: &u64| patterns.iter().map(move |&y| [x, y]);
    patterns.iter().flat_map(with_every).collect()
}

impl Random {
    /// Two finite patterns to add, subtract or multiply.
    pub fn finite_pair(&mut self, format: &Format) -> [u64; 2] {
        let [x, y] = match self.below(16) {
            0 => [self.finite(format), self.finite(format)],
            1 | 2 => self.cancelling(format),
            3 | 4 => self.summands_at_a_tie(format),
            5 | 6 => self.digits_apart(format),
            7 => self.small(format),
            8 => self.summands_at_overflow(format),
            9 => self.with_zero(format),
            10 | 11 => self.factors_at_a_tie(format),
            12 | 13 => self.factors_of_the_smallest(format),
            14 => self.factors_at_overflow(format),
            _ => self.factors_in_range(format),
        };
        let signs = self.word();
        let signed = |pattern, bit: u32| pattern ^ ((signs >> bit & 1) * format.sign_bit());
        [signed(x, 0), signed(y, 1)]
    }

    fn finite(&mut self, format: &Format) -> u64 {
        let field = self.below(format.largest_exponent_field());
        self.in_field(format, field)
    }

    /// Numbers beside each other, up to half of the digits away, or one on either side of a power of
    /// two: with opposite signs most digits cancel.
    fn cancelling(&mut self, format: &Format) -> [u64; 2] {
        let x = match self.below(4) {
            0 => self.below(format.largest_exponent_field()) << format.fraction_bits,
            1 => format.fabs(self.subnormal(format)),
            _ => format.fabs(self.finite(format)),
        };
        let digits = self.below(format.fraction_bits as u64 / 2);
        let apart = self.within(-2..3) << digits;
        let y = x.saturating_add_signed(apart).min(format.infinity() - 1);
        [x, y]
    }

    /// x, and an odd multiple of half its last place, or the number beside one.
    fn summands_at_a_tie(&mut self, format: &Format) -> [u64; 2] {
        let field = 2 + self.below(format.largest_exponent_field() - 3);
        let x = format.fabs(self.in_field(format, field));
        let digits = 1 + self.below(format.fraction_bits as u64 + 1) as u32;
        let y = pack(format, self.of_digits(digits) | 1, field as u32 - 2);
        let y = match self.below(4) {
            0 => y.saturating_add_signed(self.within(-1..2)),
            _ => y,
        };
        [x, y.min(format.infinity() - 1)]
    }

    /// Exponents so far apart that the smaller number is about a unit of the larger's last place: from
    /// two more to five fewer. The larger may be a power of two, below which numbers are closer.
    fn digits_apart(&mut self, format: &Format) -> [u64; 2] {
        let apart = format.fraction_bits as u64 - 2 + self.below(8);
        let field = apart + self.below(format.largest_exponent_field() - apart);
        let fraction_of = |random: &mut Random, x: u64| match random.below(4) {
            0 => x >> format.fraction_bits << format.fraction_bits,
            1 => (x >> format.fraction_bits << format.fraction_bits) + 1,
            2 => x | ((1 << format.fraction_bits) - 1),
            _ => x,
        };
        let [x, y] = [field, field - apart].map(|field| {
            let x = format.fabs(self.in_field(format, field));
            fraction_of(self, x)
        });
        self.in_either_order([x, y])
    }

    /// A sum of the same sign at the first number that is rounded to infinity, or beside it. In units of
    /// half the largest number's last place that is 2^(F + 2) - 1.
    fn summands_at_overflow(&mut self, format: &Format) -> [u64; 2] {
        let unit = format.infinity_log2() - format.fraction_bits - 2;
        let edge = (1 << (format.fraction_bits + 2)) - 1;
        let x = format.fabs(self.in_field(format, format.largest_exponent_field() - 1));
        let (a, _) = split(format, x);
        let rest = (edge - 2 * a).saturating_add_signed(self.within(-2..3));
        let y = pack(format, rest, unit);
        let y = match self.below(4) {
            0 => y.saturating_add_signed(self.within(-1..2)),
            _ => y,
        };
        self.in_either_order([x, y.min(format.infinity() - 1)])
    }

    /// A zero of either sign, beside another or beside anything.
    fn with_zero(&mut self, format: &Format) -> [u64; 2] {
        match self.below(2) {
            0 => [0, 0],
            _ => {
                let other = self.finite(format);
                self.in_either_order([0, other])
            }
        }
    }

    fn in_either_order(&mut self, [x, y]: [u64; 2]) -> [u64; 2] {
        match self.below(2) {
            0 => [x, y],
            _ => [y, x],
        }
    }

    /// Factors with exponents such that the product's is any that is normal.
    fn factors_in_range(&mut self, format: &Format) -> [u64; 2] {
        let largest = format.largest_exponent_field();
        let of_product = self.below(largest);
        self.factors_of_field(format, of_product as i64)
    }

    /// Factors whose product has about this exponent field.
    fn factors_of_field(&mut self, format: &Format, of_product: i64) -> [u64; 2] {
        let most = format.largest_exponent_field() as i64 - 1;
        let total = of_product + format.bias() as i64;
        let [least, greatest] = [total - most, total].map(|field| field.clamp(0, most));
        let field = self.within(least..greatest + 1);
        let other = (total - field).clamp(0, most);
        [field, other].map(|field| self.in_field(format, field as u64))
    }

    /// Factors whose product is a tie, or lies right beside one.
    fn factors_at_a_tie(&mut self, format: &Format) -> [u64; 2] {
        let all_digits = format.fraction_bits + 1;
        let [a, b] = match self.below(2) {
            0 => self.short_significands(format),
            _ => self.significands_beside_a_tie(format),
        };
        // Moved to a product of any exponent that is normal.
        let one = format.one_log2();
        let product = self.below(format.infinity_log2() as u64 - 3 * all_digits as u64) as u32;
        let total = one + product;
        let room = format.infinity_log2() - all_digits;
        let least = total.saturating_sub(room);
        let places = least + self.below((total.min(room) - least) as u64 + 1) as u32;
        [pack(format, a, places), pack(format, b, total - places)]
    }

    /// Odd significands whose product has one digit more than a fraction and its leading one, which is a
    /// tie, or about so many.
    fn short_significands(&mut self, format: &Format) -> [u64; 2] {
        let all_digits = format.fraction_bits + 1;
        let of_x = 1 + self.below(all_digits as u64) as u32;
        let of_y = (all_digits + 2 - of_x - self.below(2) as u32).clamp(1, all_digits);
        [of_x, of_y].map(|digits| self.of_digits(digits) | 1)
    }

    /// Significands with all their digits, and a product whose last half is about a half: the digit that
    /// tells on which side it lies is one of the last. Found backwards: modulo 2^k, where k digits fall
    /// off, an odd a has an inverse.
    fn significands_beside_a_tie(&mut self, format: &Format) -> [u64; 2] {
        let digits = format.fraction_bits + 1;
        let a = self.of_digits(digits) | 1;
        let falling_off = digits - self.below(2) as u32;
        let half = 1u64 << (falling_off - 1);
        let rest = half.wrapping_add_signed(self.within(-3..4));
        let b = rest.wrapping_mul(inverse(a)) % (2 * half);
        [a, b | 1 << format.fraction_bits]
    }

    /// Factors whose product is subnormal, or too small for that: few digits, where ties are, or all.
    fn factors_of_the_smallest(&mut self, format: &Format) -> [u64; 2] {
        let all_digits = format.fraction_bits + 1;
        let ([a, b], below) = match self.below(8) {
            0 | 1 => {
                // Of which the leading digit counts from a quarter of a unit up to the first normal ones.
                let of_product = self.within(-(all_digits as i64) - 2..3);
                return self.factors_of_field(format, of_product);
            }
            // The smallest normal number is 2^F units, and a·b is about 2^(2·F + 1).
            2 => {
                let a = self.of_digits(all_digits);
                let b = ((1u128 << (2 * all_digits - 1)) / a as u128) as u64;
                let b = b.saturating_add_signed(self.within(-1..2));
                ([a, b.clamp(1, (1 << all_digits) - 1)], all_digits)
            }
            // So many digits of a·b count less than a unit: none, one, which is a tie, or up to all.
            choice => {
                let most = self.one_of(&[2, all_digits / 2, all_digits]);
                let sizes = [(); 2].map(|_| 1 + self.below(most as u64) as u32);
                let factors = sizes.map(|digits| self.of_digits(digits) | 1);
                let below = match choice {
                    3 => 0,
                    4 | 5 => 1,
                    _ => 1 + self.below((sizes[0] + sizes[1] + 1) as u64) as u32,
                };
                (factors, below)
            }
        };
        let total = format.one_log2() - below;
        let places = self.below(total as u64 + 1) as u32;
        let room = format.infinity_log2() - all_digits;
        let places = places.clamp(total.saturating_sub(room), total.min(room));
        [pack(format, a, places), pack(format, b, total - places)]
    }

    /// Factors whose product is the last that is finite or the first that isn't. In units of half the
    /// largest number's last place the edge is 2^(F + 2) - 1.
    fn factors_at_overflow(&mut self, format: &Format) -> [u64; 2] {
        let digits = format.fraction_bits + 1;
        let a = self.of_digits(digits);
        let edge = ((1u128 << (digits + 1)) - 1) << (digits - 2);
        let b = (edge / a as u128) as u64;
        let b = b.saturating_add_signed(self.within(-1..3));
        let b = b.clamp(1 << (digits - 1), (1 << digits) - 1);
        // a·b has 2·digits - 1 digits, the first of which is the largest number's first.
        let total = format.one_log2() + format.infinity_log2() - (2 * digits - 1);
        let room = format.infinity_log2() - digits;
        let least = total - room;
        let places = least + self.below((room - least) as u64 + 1) as u32;
        [pack(format, a, places), pack(format, b, total - places)]
    }
}

/// The inverse of an odd number modulo 2^64. Each round doubles the digits that are right, which are
/// three at first.
fn inverse(a: u64) -> u64 {
    (0..5).fold(a, |inverse, _| {
        inverse.wrapping_mul(2u64.wrapping_sub(a.wrapping_mul(inverse)))
    })
}

/// What an addition or a multiplication of finite numbers is. One may be of several sorts.
#[derive(Clone, Copy, Debug, PartialEq, Eq, PartialOrd, Ord)]
pub enum Sort {
    /// The sum lies just between two numbers, and the even one is the nearer to zero or the farther.
    SumTieDown,
    SumTieUp,
    /// It was rounded, but not at a tie; it was not rounded.
    SumInexact,
    SumExact,
    /// The sum is smaller than the larger operand by a factor of 2^10 or more, but not zero.
    Cancelled,
    /// Opposite numbers other than zeros.
    CancelledToZero,
    /// The sum is subnormal, of subnormal operands or of normal ones.
    SubnormalSumOfSubnormals,
    SubnormalSumOfNormals,
    /// Zeros by their signs.
    PlusPlusZeros,
    PlusMinusZeros,
    MinusPlusZeros,
    MinusMinusZeros,
    /// The exponents are as many places apart as the fraction has digits, two fewer, up to five more.
    TwoFewerApart,
    OneFewerApart,
    DigitsApart,
    OneMoreApart,
    TwoMoreApart,
    ThreeMoreApart,
    FourMoreApart,
    FiveMoreApart,
    /// The sum is rounded down to the largest number, or up to infinity from below the next power of two.
    SumBelowTheEdge,
    SumAboveTheEdge,
    /// The sum is the tie at overflow's edge.
    SumAtTheEdge,
    /// The same of products.
    ProductTieDown,
    ProductTieUp,
    ProductInexact,
    ProductExact,
    SubnormalProductTieDown,
    SubnormalProductTieUp,
    SubnormalProductInexact,
    SubnormalProductExact,
    /// The product of numbers other than zero is rounded to +0, to -0.
    ProductToPlusZero,
    ProductToMinusZero,
    /// A product that is rounded up to the smallest normal number.
    ProductToNormal,
    /// A zero among the operands, and the product's sign.
    PlusZeroProduct,
    MinusZeroProduct,
    ProductBelowTheEdge,
    ProductAboveTheEdge,
}

impl Sort {
    pub const ALL: [Sort; 38] = [
        Sort::SumTieDown,
        Sort::SumTieUp,
        Sort::SumInexact,
        Sort::SumExact,
        Sort::Cancelled,
        Sort::CancelledToZero,
        Sort::SubnormalSumOfSubnormals,
        Sort::SubnormalSumOfNormals,
        Sort::PlusPlusZeros,
        Sort::PlusMinusZeros,
        Sort::MinusPlusZeros,
        Sort::MinusMinusZeros,
        Sort::TwoFewerApart,
        Sort::OneFewerApart,
        Sort::DigitsApart,
        Sort::OneMoreApart,
        Sort::TwoMoreApart,
        Sort::ThreeMoreApart,
        Sort::FourMoreApart,
        Sort::FiveMoreApart,
        Sort::SumBelowTheEdge,
        Sort::SumAboveTheEdge,
        Sort::SumAtTheEdge,
        Sort::ProductTieDown,
        Sort::ProductTieUp,
        Sort::ProductInexact,
        Sort::ProductExact,
        Sort::SubnormalProductTieDown,
        Sort::SubnormalProductTieUp,
        Sort::SubnormalProductInexact,
        Sort::SubnormalProductExact,
        Sort::ProductToPlusZero,
        Sort::ProductToMinusZero,
        Sort::ProductToNormal,
        Sort::PlusZeroProduct,
        Sort::MinusZeroProduct,
        Sort::ProductBelowTheEdge,
        Sort::ProductAboveTheEdge,
    ];

    /// The sorts of distances, the nearest first.
    const APART: [Sort; 8] = [
        Sort::TwoFewerApart,
        Sort::OneFewerApart,
        Sort::DigitsApart,
        Sort::OneMoreApart,
        Sort::TwoMoreApart,
        Sort::ThreeMoreApart,
        Sort::FourMoreApart,
        Sort::FiveMoreApart,
    ];
}

/// How often each sort came up.
#[derive(Clone)]
pub struct Met {
    sorts: [u64; Sort::ALL.len()],
}

impl Default for Met {
    fn default() -> Met {
        let sorts = [0; Sort::ALL.len()];
        Met { sorts }
    }
}

impl Met {
    fn add(&mut self, sort: Sort) {
        self.sorts[sort as usize] += 1;
    }

    pub fn of(&self, sort: Sort) -> u64 {
        self.sorts[sort as usize]
    }

    pub fn join(&mut self, other: Met) {
        for (all, count) in self.sorts.iter_mut().zip(other.sorts) {
            *all += count;
        }
    }

    /// Stops where a sort came up less often.
    pub fn expect(&self, least: u64) {
        for sort in Sort::ALL {
            println!("{sort:?}: {}", self.of(sort));
        }
        for sort in Sort::ALL {
            let count = self.of(sort);
            assert!(count >= least, "{sort:?} came up {count} times");
        }
    }

    /// Adds a sum of finite operands, with its word.
    pub fn add_sum(&mut self, format: &Format, x: u64, y: u64, sum: u64) {
        let opposite = format.is_negative(x ^ y);
        let [a, b] = [x, y].map(|x| format.fabs(x));
        let (larger, smaller) = (a.max(b), a.min(b));
        if larger == 0 {
            return self.add(match [x, y].map(|x| format.is_negative(x)) {
                [false, false] => Sort::PlusPlusZeros,
                [false, true] => Sort::PlusMinusZeros,
                [true, false] => Sort::MinusPlusZeros,
                [true, true] => Sort::MinusMinusZeros,
            });
        }
        let result = format.fabs(sum);
        if result == 0 {
            return self.add(Sort::CancelledToZero);
        }
        let ((p, of_larger), (q, of_smaller)) = (split(format, larger), split(format, smaller));
        let apart = of_larger - of_smaller;
        if opposite && format.exponent_field(result) + 10 <= format.exponent_field(larger) {
            self.add(Sort::Cancelled);
        }
        if result < 1 << format.fraction_bits {
            self.add(match smaller < 1 << format.fraction_bits {
                true => Sort::SubnormalSumOfSubnormals,
                false => Sort::SubnormalSumOfNormals,
            });
        }
        let distance = apart as i64 - (format.fraction_bits as i64 - 2);
        if let Some(&sort) = usize::try_from(distance)
            .ok()
            .and_then(|d| Sort::APART.get(d))
        {
            self.add(sort);
        }
        if q == 0 {
            return self.add(Sort::SumExact);
        }
        if apart > format.fraction_bits + 8 {
            return self.add(Sort::SumInexact);
        }
        // The exact sum, in units of the smaller's last place.
        let (p, q) = ((p as u128) << apart, q as u128);
        let exact = if opposite { p - q } else { p + q };
        let off = digits_off(format, exact, 0);
        match rest_of(exact, off) {
            Rest::None => self.add(Sort::SumExact),
            Rest::Half if (exact >> off) % 2 == 0 => self.add(Sort::SumTieDown),
            Rest::Half => self.add(Sort::SumTieUp),
            Rest::Other => self.add(Sort::SumInexact),
        }
        self.add_edge(
            format,
            result,
            (exact, of_smaller as i32),
            off,
            [
                Sort::SumBelowTheEdge,
                Sort::SumAtTheEdge,
                Sort::SumAboveTheEdge,
            ],
        );
    }

    /// Adds a product of finite operands, with its word.
    pub fn add_product(&mut self, format: &Format, x: u64, y: u64, product: u64) {
        let result = format.fabs(product);
        let negative = format.is_negative(x ^ y);
        let ((a, of_x), (b, of_y)) = (split(format, x), split(format, y));
        if a == 0 || b == 0 {
            return self.add(match negative {
                false => Sort::PlusZeroProduct,
                true => Sort::MinusZeroProduct,
            });
        }
        if result == 0 {
            return self.add(match negative {
                false => Sort::ProductToPlusZero,
                true => Sort::ProductToMinusZero,
            });
        }
        let exact = a as u128 * b as u128;
        let exponent = (of_x + of_y) as i32 - format.one_log2() as i32;
        let size = 128 - exact.leading_zeros();
        let is_subnormal = size as i32 + exponent <= format.fraction_bits as i32;
        let off = digits_off(format, exact, -exponent);
        let rest = rest_of(exact, off);
        let is_even = off < 128 && (exact >> off) % 2 == 0;
        self.add(match (is_subnormal, rest) {
            (false, Rest::None) => Sort::ProductExact,
            (false, Rest::Half) if is_even => Sort::ProductTieDown,
            (false, Rest::Half) => Sort::ProductTieUp,
            (false, Rest::Other) => Sort::ProductInexact,
            (true, Rest::None) => Sort::SubnormalProductExact,
            (true, Rest::Half) if is_even => Sort::SubnormalProductTieDown,
            (true, Rest::Half) => Sort::SubnormalProductTieUp,
            (true, Rest::Other) => Sort::SubnormalProductInexact,
        });
        if is_subnormal && result == 1 << format.fraction_bits {
            self.add(Sort::ProductToNormal);
        }
        self.add_edge(
            format,
            result,
            (exact, exponent),
            off,
            [
                Sort::ProductBelowTheEdge,
                Sort::ProductAboveTheEdge,
                Sort::ProductAboveTheEdge,
            ],
        );
    }

    /// Adds a result of so many digits beside overflow's edge: what is rounded to the largest number or
    /// to infinity, and less than the next power of two.
    fn add_edge(
        &mut self,
        format: &Format,
        result: u64,
        (exact, exponent): (u128, i32),
        off: u32,
        [below, at, above]: [Sort; 3],
    ) {
        let size = 128 - exact.leading_zeros() as i32;
        if size + exponent != format.infinity_log2() as i32 || rest_of(exact, off) == Rest::None {
            return;
        }
        if result == format.infinity() - 1 {
            self.add(below);
        } else if result == format.infinity() {
            self.add(match rest_of(exact, off) {
                Rest::Half => at,
                _ => above,
            });
        }
    }
}

/// What falls off where a number is rounded.
#[derive(Clone, Copy, PartialEq, Eq)]
enum Rest {
    None,
    /// Half of the last place.
    Half,
    Other,
}

/// How many of a number's digits are too many: for a fraction and its leading one, or since so many
/// count less than a unit.
fn digits_off(format: &Format, exact: u128, below_units: i32) -> u32 {
    let size = 128 - exact.leading_zeros() as i32;
    let off = (size - format.fraction_bits as i32 - 1).max(below_units);
    off.max(0) as u32
}

/// By the zeros that a number ends with.
fn rest_of(exact: u128, off: u32) -> Rest {
    match exact.trailing_zeros() {
        zeros if zeros >= off => Rest::None,
        zeros if zeros + 1 == off => Rest::Half,
        _ => Rest::Other,
    }
}

#[cfg(test)]
mod tests {
    use super::*;
    use crate::reference::{arithmetic, Class, BINARY32, BINARY64};

    #[test]
    fn pairs_are_finite_and_of_every_sort() {
        for format in [BINARY64, BINARY32] {
            let mut random = Random::new(0x208);
            let mut met = Met::default();
            let drawn = (0..400_000).map(|_| random.finite_pair(&format));
            for [x, y] in drawn {
                let is_finite = |x| {
                    format.fabs(x) < format.sign_bit()
                        && !matches!(format.classify(x), Class::Infinite | Class::Nan)
                };
                assert!(is_finite(x) && is_finite(y), "{x:x} {y:x}");
                let sum = arithmetic::sum(&format, x, y).words[0];
                met.add_sum(&format, x, y, sum);
                let product = arithmetic::product(&format, x, y).words[0];
                met.add_product(&format, x, y, product);
            }
            println!("{} bits", format.width());
            met.expect(100);
        }
    }

    #[test]
    fn edges_are_finite_and_of_every_sort() {
        let mut met = Met::default();
        let edges = edges(&BINARY64);
        assert!((10_000..100_000).contains(&edges.len()), "{}", edges.len());
        for [x, y] in edges {
            met.add_sum(&BINARY64, x, y, arithmetic::sum(&BINARY64, x, y).words[0]);
            let product = arithmetic::product(&BINARY64, x, y).words[0];
            met.add_product(&BINARY64, x, y, product);
        }
        met.expect(1);
    }

    /// A count that called everything a tie would say nothing. Read off by hand, with the sum or the
    /// product by the language's own operations.
    #[test]
    #[rustfmt::skip]
    fn sorts_are_what_they_say() {
        use Sort::*;
        let (tiny, small, big) = (f64::from_bits(1), f64::MIN_POSITIVE, f64::MAX);
        let (two, bits) = (|n: i32| 2f64.powi(n), f64::from_bits);
        for (x, y, sorts) in [
            (1.0,              two(-53),             &[SumTieDown, OneMoreApart][..]),
            (1.0 + two(-52),   two(-53),             &[SumTieUp, OneMoreApart]),
            (-1.0,             -two(-53) * 1.5,      &[SumInexact, OneMoreApart]),
            (1.0,              -two(-54),            &[SumTieUp, TwoMoreApart]),
            (1.0,              two(-52),             &[SumExact, DigitsApart]),
            (1.0,              two(-57) * 1.5,       &[SumInexact, FiveMoreApart]),
            (1.0,              two(-50),             &[SumExact, TwoFewerApart]),
            (1.0,              two(-49),             &[SumExact]),
            (1.0,              two(-80),             &[SumInexact]),
            (1.0,              -0.0,                 &[SumExact]),
            (1.0,              -1.0 + two(-53),      &[Cancelled, SumExact]),
            (3.5,              -3.5,                 &[CancelledToZero]),
            (0.0,              0.0,                  &[PlusPlusZeros]),
            (0.0,              -0.0,                 &[PlusMinusZeros]),
            (-0.0,             0.0,                  &[MinusPlusZeros]),
            (-0.0,             -0.0,                 &[MinusMinusZeros]),
            (tiny,             tiny,                 &[SubnormalSumOfSubnormals, SumExact]),
            (small * 1.5,      -small,               &[SubnormalSumOfNormals, SumExact]),
            (big,              two(970),             &[SumTieUp, OneMoreApart, SumAtTheEdge]),
            (big,              two(970).next_down(), &[SumInexact, TwoMoreApart, SumBelowTheEdge]),
            (big,              two(970).next_up(),   &[SumInexact, OneMoreApart, SumAboveTheEdge]),
            (big,              big,                  &[SumExact]),
        ] {
            let mut met = Met::default();
            met.add_sum(&BINARY64, x.to_bits(), y.to_bits(), (x + y).to_bits());
            expect_just(&met, sorts, x, y);
        }
        for (x, y, sorts) in [
            (3.0,              1.0 + two(-52),       &[ProductTieUp][..]),
            (5.0,              1.0 + two(-52),       &[ProductInexact]),
            (1.5,              1.0 + two(-52),       &[ProductTieUp]),
            (1.5,              1.0 + 3.0 * two(-52), &[ProductTieDown]),
            (1.5,              1.0 + 5.0 * two(-52), &[ProductTieUp]),
            (1.5,              3.0,                  &[ProductExact]),
            (tiny,             0.5,                  &[ProductToPlusZero]),
            (-tiny,            0.25,                 &[ProductToMinusZero]),
            (tiny * 3.0,       0.5,                  &[SubnormalProductTieUp]),
            (tiny * 5.0,       0.5,                  &[SubnormalProductTieDown]),
            (tiny * 5.0,       0.25,                 &[SubnormalProductInexact]),
            (tiny * 5.0,       3.0,                  &[SubnormalProductExact]),
            (small.next_up(),  1f64.next_down(),     &[ProductInexact]),
            (small,            1f64.next_down(),     &[SubnormalProductTieUp, ProductToNormal]),
            (0.0,              -2.0,                 &[MinusZeroProduct]),
            (-0.0,             -0.0,                 &[PlusZeroProduct]),
            (big,              1f64.next_up(),       &[ProductInexact]), // beyond the power of two
            (1.5,              bits(0x7fe5555555555555), &[ProductAboveTheEdge, ProductTieUp]),
            (bits(0x3ff204f8c386bbc4), bits(0x7fec69edff6f0365), &[ProductAboveTheEdge, ProductInexact]),
            (bits(0x3ff75205cd447e35), bits(0x7fe5f47c8da1e843), &[ProductBelowTheEdge, ProductInexact]),
            (big,              2.0,                  &[ProductExact]),
            (big / 2.0,        2.0,                  &[ProductExact]),
        ] {
            let mut met = Met::default();
            met.add_product(&BINARY64, x.to_bits(), y.to_bits(), (x * y).to_bits());
            expect_just(&met, sorts, x, y);
        }
    }

    fn expect_just(met: &Met, sorts: &[Sort], x: f64, y: f64) {
        for sort in Sort::ALL {
            let expected = sorts.contains(&sort) as u64;
            assert_eq!(met.of(sort), expected, "{sort:?} of {x:e} and {y:e}");
        }
    }
}
