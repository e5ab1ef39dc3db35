//! Rules for sums and products that are W-208's but for one point, such as halves away from zero or a
//! digit that is lost. The edges that the library is tried on refute each of them, and so do the pairs
//! that are drawn.

use estrenwind_tests::arithmetic::edges;
use estrenwind_tests::patterns::Random;
use estrenwind_tests::reference::rounding::{rule, Position, Rest};
use estrenwind_tests::reference::short::split;
use estrenwind_tests::reference::BINARY64;
use std::cmp::Ordering;

const MINUS: u64 = 1 << 63;
const INFINITY: u64 = 0x7ff0000000000000;
const LARGEST: u64 = INFINITY - 1;
const SMALLEST_NORMAL: u64 = 1 << 52;

/// Places below the last of the larger summand, so many that none is lost but where it can't matter.
const SPARE: u32 = 64;

/// What a rule may have another way.
#[derive(Clone, Copy)]
struct Rules {
    /// Whether the number farther from zero is taken.
    up: fn(Position) -> bool,
    /// How many places below its last the larger summand has; digits of the smaller below them are lost,
    /// or leave a trace.
    spare: u32,
    leaves_trace: bool,
    /// The larger summand, where the exponents are so far apart.
    far: u32,
    /// How many digits of a product are looked at.
    digits: u32,
    /// Rounded to 53 digits first, then to units.
    twice: bool,
    /// Subnormal results, or operands, are zeros.
    flushes_result: bool,
    flushes_operands: bool,
    /// What rounds to infinity below the next power of two is the largest number.
    saturates: bool,
    /// What is above the largest number is infinite.
    overflows_early: bool,
    /// Signs of zeros: of opposite numbers, of two zeros, of a product that is zero.
    of_opposite: u64,
    of_zeros: fn(u64, u64) -> u64,
    of_zero_product: fn(u64, u64) -> u64,
}

const RIGHT: Rules = Rules {
    up: rule::nearbyint,
    spare: SPARE,
    leaves_trace: true,
    far: u32::MAX,
    digits: 106,
    twice: false,
    flushes_result: false,
    flushes_operands: false,
    saturates: false,
    overflows_early: false,
    of_opposite: 0,
    of_zeros: |x, y| x & y,
    of_zero_product: |x, y| x ^ y,
};

impl Rules {
    fn sum(&self, x: u64, y: u64) -> u64 {
        let [x, y] = [x, y].map(|x| self.operand(x));
        let [a, b] = [x, y].map(|x| x & !MINUS);
        let (large, small) = if a >= b { (x, y) } else { (y, x) };
        let is_opposite = (x ^ y) & MINUS != 0;
        if a == 0 && b == 0 {
            return (self.of_zeros)(x, y) & MINUS;
        }
        if a == b && is_opposite {
            return self.of_opposite;
        }
        let (p, exponent) = split(&BINARY64, large);
        let (q, below) = split(&BINARY64, small);
        if exponent - below >= self.far {
            return large;
        }
        let (p, q) = ((p as u128) << self.spare, (q as u128) << self.spare);
        let q = self.moved_down(q, exponent - below);
        let digits = if is_opposite { p - q } else { p + q };
        let sign = large & MINUS;
        sign | self.rounded(digits, exponent as i32 - self.spare as i32, sign != 0)
    }

    fn product(&self, x: u64, y: u64) -> u64 {
        let [x, y] = [x, y].map(|x| self.operand(x));
        let (a, of_x) = split(&BINARY64, x);
        let (b, of_y) = split(&BINARY64, y);
        let exact = a as u128 * b as u128;
        let spare = size(exact).saturating_sub(self.digits);
        let exponent = (of_x + of_y + spare) as i32 - BINARY64.one_log2() as i32;
        let sign = (x ^ y) & MINUS;
        match self.rounded(exact >> spare, exponent, sign != 0) {
            0 => (self.of_zero_product)(x, y) & MINUS,
            magnitude => sign | magnitude,
        }
    }

    fn operand(&self, x: u64) -> u64 {
        match x & !MINUS < SMALLEST_NORMAL && self.flushes_operands {
            true => x & MINUS,
            false => x,
        }
    }

    fn moved_down(&self, digits: u128, places: u32) -> u128 {
        let left = digits.checked_shr(places).unwrap_or(0);
        let lost = left.checked_shl(places).unwrap_or(0) != digits;
        left | (lost && self.leaves_trace) as u128
    }

    /// The magnitude's pattern.
    fn rounded(&self, digits: u128, exponent: i32, negative: bool) -> u64 {
        let (digits, exponent) = match self.twice && size(digits) > 53 {
            true => {
                let off = size(digits) - 53;
                (self.cut(digits, off, negative), exponent + off as i32)
            }
            false => (digits, exponent),
        };
        let off = (size(digits) as i32 - 53).max(-exponent).max(0) as u32;
        let significand = self.cut(digits, off, negative);
        let exponent = exponent + off as i32;
        let is_exact = significand.checked_shl(off) == Some(digits) && off < 128;
        // A field holds the leading digit, so that a carry goes on into the exponent.
        let field = match significand >> 52 {
            0 => {
                return if self.flushes_result {
                    0
                } else {
                    small(significand, exponent)
                }
            }
            _ => exponent as u64 + (size(significand) - 53) as u64,
        };
        let significand = significand >> (size(significand) - 53);
        let pattern = ((field + 1) << 52) + (significand as u64 - SMALLEST_NORMAL);
        let is_below = size(digits) as i32 + exponent - off as i32 <= 2098;
        if pattern >= INFINITY && self.saturates && is_below {
            LARGEST
        } else if pattern == LARGEST && self.overflows_early && !is_exact {
            INFINITY
        } else {
            pattern.min(INFINITY)
        }
    }

    /// So many of the last digits rounded off.
    fn cut(&self, digits: u128, off: u32, negative: bool) -> u128 {
        if off == 0 {
            return digits;
        }
        let kept = digits.checked_shr(off).unwrap_or(0);
        let rest = digits - kept.checked_shl(off).unwrap_or(0);
        let against_half = match off > 127 {
            true => Ordering::Less,
            false => rest.cmp(&(1 << (off - 1))),
        };
        let position = Position {
            negative,
            odd_quotient: kept % 2 == 1,
            rest: Rest::new(rest == 0, against_half),
        };
        kept + (self.up)(position) as u128
    }
}

fn size(digits: u128) -> u32 {
    128 - digits.leading_zeros()
}

/// A number of fewer digits than a normal one has, in units that it may have to be moved up to.
fn small(significand: u128, exponent: i32) -> u64 {
    let mut units = significand as u64;
    let mut left = exponent;
    while left > 0 && units != 0 && units < SMALLEST_NORMAL {
        (units, left) = (units << 1, left - 1);
    }
    match units < SMALLEST_NORMAL {
        true => units,
        false => units + ((left as u64) << 52),
    }
}

fn above_half(position: Position) -> bool {
    position.rest == Rest::AboveHalf
}

fn to_odd(position: Position) -> bool {
    match position.rest {
        Rest::Half => !position.odd_quotient,
        rest => rest == Rest::AboveHalf,
    }
}

#[rustfmt::skip]
const SUMS: [(&str, Rules); 17] = [
    ("halves away from zero", Rules { up: rule::round, ..RIGHT }),
    ("halves toward zero", Rules { up: above_half, ..RIGHT }),
    ("halves to odd", Rules { up: to_odd, ..RIGHT }),
    ("toward zero", Rules { up: rule::trunc, ..RIGHT }),
    ("down", Rules { up: rule::floor, ..RIGHT }),
    ("up", Rules { up: rule::ceil, ..RIGHT }),
    ("no place below the last", Rules { spare: 0, leaves_trace: false, ..RIGHT }),
    ("one place below the last", Rules { spare: 1, leaves_trace: false, ..RIGHT }),
    ("two places below the last", Rules { spare: 2, leaves_trace: false, ..RIGHT }),
    ("two places, the last a trace", Rules { spare: 2, ..RIGHT }),
    ("the larger from 54 places on", Rules { far: 54, ..RIGHT }),
    ("subnormal sums are zeros", Rules { flushes_result: true, ..RIGHT }),
    ("subnormal summands are zeros", Rules { flushes_operands: true, ..RIGHT }),
    ("the largest up to the next power of two", Rules { saturates: true, ..RIGHT }),
    ("infinite above the largest", Rules { overflows_early: true, ..RIGHT }),
    ("opposite numbers give -0", Rules { of_opposite: MINUS, ..RIGHT }),
    ("-0 where either is", Rules { of_zeros: |x, y| x | y, ..RIGHT }),
];

#[rustfmt::skip]
const PRODUCTS: [(&str, Rules); 16] = [
    ("halves away from zero", Rules { up: rule::round, ..RIGHT }),
    ("halves toward zero", Rules { up: above_half, ..RIGHT }),
    ("halves to odd", Rules { up: to_odd, ..RIGHT }),
    ("toward zero", Rules { up: rule::trunc, ..RIGHT }),
    ("down", Rules { up: rule::floor, ..RIGHT }),
    ("up", Rules { up: rule::ceil, ..RIGHT }),
    ("54 digits of the product", Rules { digits: 54, ..RIGHT }),
    ("64 digits of the product", Rules { digits: 64, ..RIGHT }),
    ("rounded twice", Rules { twice: true, ..RIGHT }),
    ("subnormal products are zeros", Rules { flushes_result: true, ..RIGHT }),
    ("subnormal factors are zeros", Rules { flushes_operands: true, ..RIGHT }),
    ("the largest up to the next power of two", Rules { saturates: true, ..RIGHT }),
    ("infinite above the largest", Rules { overflows_early: true, ..RIGHT }),
    ("a zero is +0", Rules { of_zero_product: |_, _| 0, ..RIGHT }),
    ("a zero has the first factor's sign", Rules { of_zero_product: |x, _| x, ..RIGHT }),
    ("a zero is -0 where either factor is negative", Rules { of_zero_product: |x, y| x | y, ..RIGHT }),
];

fn sum(x: u64, y: u64) -> u64 {
    (f64::from_bits(x) + f64::from_bits(y)).to_bits()
}

fn product(x: u64, y: u64) -> u64 {
    (f64::from_bits(x) * f64::from_bits(y)).to_bits()
}

/// The edges, and a million drawn pairs.
fn pairs() -> [Vec<[u64; 2]>; 2] {
    let mut random = Random::new(0x2085);
    let drawn = (0..1_000_000).map(|_| random.finite_pair(&BINARY64));
    [edges(&BINARY64), drawn.collect()]
}

/// On how many of these the rule gives another answer than the language's own operation.
fn refuted(
    pairs: &[[u64; 2]],
    rule: impl Fn(u64, u64) -> u64,
    right: fn(u64, u64) -> u64,
) -> usize {
    let differs = |&&[x, y]: &&[u64; 2]| rule(x, y) != right(x, y);
    pairs.iter().filter(differs).count()
}

#[test]
fn edges_and_drawn_pairs_refute_wrong_rules() {
    let [edges, drawn] = pairs();
    let expect = |name: &str, by_edges: usize, by_drawn: usize| {
        println!("{name}: by {by_edges} edges, {by_drawn} drawn pairs");
        assert!(by_edges >= 1, "{name}: no edge");
        assert!(by_drawn >= 100, "{name}: {by_drawn} drawn pairs");
    };
    for (name, rules) in SUMS {
        let [by_edges, by_drawn] =
            [&edges, &drawn].map(|pairs| refuted(pairs, |x, y| rules.sum(x, y), sum));
        expect(&format!("sum, {name}"), by_edges, by_drawn);
    }
    for (name, rules) in PRODUCTS {
        let [by_edges, by_drawn] =
            [&edges, &drawn].map(|pairs| refuted(pairs, |x, y| rules.product(x, y), product));
        expect(&format!("product, {name}"), by_edges, by_drawn);
    }
}

/// What the wrong ones are changed from.
#[test]
fn the_right_rule_is_not_refuted() {
    for pairs in pairs() {
        assert_eq!(refuted(&pairs, |x, y| RIGHT.sum(x, y), sum), 0);
        assert_eq!(refuted(&pairs, |x, y| RIGHT.product(x, y), product), 0);
    }
}

/// Digits that can be left out: three places are enough, the last a trace of what is lost.
#[test]
fn three_places_are_enough() {
    let rules = Rules { spare: 3, ..RIGHT };
    for pairs in pairs() {
        assert_eq!(refuted(&pairs, |x, y| rules.sum(x, y), sum), 0);
    }
}
