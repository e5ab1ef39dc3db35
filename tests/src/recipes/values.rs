//! Constants, ranges and inputs.

use crate::patterns::Random;
use crate::reference::recipe::Kind;
use crate::reference::{Class, BINARY64};

/// Whole numbers at which a rule changes: the ends of 64 bits, 2^53, where doubles stop, the powers
/// of ldexp.
const WHOLES: [i64; 24] = [
    0,
    1,
    -1,
    2,
    -2,
    52,
    -53,
    1023,
    1024,
    -1074,
    -1075,
    2098,
    -2099,
    1 << 31,
    -(1 << 31) - 1,
    1 << 53,
    (1 << 53) - 1,
    (1 << 53) + 1,
    -(1 << 53),
    -(1 << 53) - 1,
    i64::MAX,
    i64::MAX - 1,
    i64::MIN,
    i64::MIN + 1,
];

/// Doubles at which one does: zeros, ones, halves, 2^53 and 2^63 with neighbours, the ends.
const DOUBLES: [u64; 22] = [
    0x0000000000000000,
    0x8000000000000000,
    0x3ff0000000000000,
    0xbff0000000000000,
    0x3fe0000000000000,
    0xbfe0000000000000,
    0x3fdfffffffffffff,
    0x3fefffffffffffff,
    0x4004000000000000,
    0xc00c000000000000,
    0x4340000000000000,
    0xc340000000000001,
    0x43dfffffffffffff,
    0x43e0000000000000,
    0xc3e0000000000000,
    0xc3e0000000000001,
    0x0000000000000001,
    0x800fffffffffffff,
    0x7fefffffffffffff,
    0xffefffffffffffff,
    0x7ff0000000000000,
    0xfff0000000000000,
];

/// Doubles that are integers, where that changes: the zeros, ones, the last numbers with others
/// between them and the next integer, the first without, the largest.
const INTEGERS: [f64; 12] = [
    0.0,
    -0.0,
    1.0,
    -1.0,
    4503599627370495.0, // 2^52 - 1
    4503599627370496.0,
    -4503599627370497.0,
    9007199254740991.0, // 2^53 - 1
    -9007199254740992.0,
    9007199254740994.0,
    f64::MAX,
    f64::MIN,
];

/// A number that orders the words of a kind as their values: a double's rank, or the whole number.
fn rank(kind: Kind, word: u64) -> i64 {
    match kind {
        Kind::Double => BINARY64.rank(word),
        Kind::Whole => word as i64,
    }
}

/// The range of numbers as hosts have them.
pub fn ordinary_range(kind: Kind) -> [u64; 2] {
    match kind {
        Kind::Double => [-1000.0f64, 1000.0].map(f64::to_bits),
        Kind::Whole => [-50i64, 50].map(|n| n as u64),
    }
}

impl Random {
    /// A number of `ordinary_range`.
    pub fn ordinary(&mut self, kind: Kind) -> u64 {
        match kind {
            Kind::Double => (self.within(-1_000_000..1_000_001) as f64 / 1000.0).to_bits(),
            Kind::Whole => self.within(-50..51) as u64,
        }
    }

    pub fn one_of<T: Copy>(&mut self, choices: &[T]) -> T {
        choices[self.below(choices.len() as u64) as usize]
    }

    /// The word of this rank: of the two zeros, either.
    fn of_rank(&mut self, kind: Kind, rank: i64) -> u64 {
        match kind {
            Kind::Whole => rank as u64,
            Kind::Double if rank == 0 => self.word() & BINARY64.sign_bit(),
            Kind::Double if rank < 0 => BINARY64.sign_bit() | rank.unsigned_abs(),
            Kind::Double => rank as u64,
        }
    }

    /// A value of the kind, no NaN.
    pub fn value(&mut self, kind: Kind) -> u64 {
        match kind {
            Kind::Double => loop {
                let word = match self.below(8) {
                    0 | 1 => self.one_of(&DOUBLES),
                    2 => self.uniform(&BINARY64),
                    3 => self.special(&BINARY64),
                    _ => self.pattern(&BINARY64),
                };
                if BINARY64.classify(word) != Class::Nan {
                    return word;
                }
            },
            Kind::Whole => match self.below(8) {
                0 | 1 => self.one_of(&WHOLES) as u64,
                2..=4 => self.within(-70..71) as u64,
                5 => self.within(-2200..2201) as u64,
                _ => (self.word() as i64 >> self.below(64)) as u64,
            },
        }
    }

    /// A double that is finite and integral, most of them small: an edge, a number as hosts have
    /// them, one of any size up to 2^53, or one beyond, where every double is.
    pub fn integral(&mut self) -> u64 {
        let integer = match self.below(8) {
            0 | 1 => self.one_of(&INTEGERS),
            2..=5 => self.within(-70..71) as f64,
            6 => (self.word() as i64 >> (10 + self.below(54))) as f64,
            _ => {
                let field = 1023 + 52 + self.below(12);
                f64::from_bits(self.in_field(&BINARY64, field))
            }
        };
        integer.to_bits()
    }

    /// One number for an input to declare, as two ends: zero, integral, any, or an infinity. Of a
    /// zero, each end is either.
    pub fn one_number(&mut self) -> [u64; 2] {
        let word = match self.below(8) {
            0 => 0,
            1..=4 => self.integral(),
            5 | 6 => self.value(Kind::Double),
            _ => BINARY64.infinity() | (self.word() & BINARY64.sign_bit()),
        };
        [word; 2].map(|end| self.of_rank(Kind::Double, rank(Kind::Double, end)))
    }

    /// The ends of a range of doubles that reaches an infinity, or both.
    pub fn range_to_infinity(&mut self) -> [u64; 2] {
        let infinity = BINARY64.infinity();
        let [lowest, highest] = [BINARY64.negate(infinity), infinity];
        match self.below(4) {
            0 => [lowest, highest],
            1 => [lowest, self.value(Kind::Double)],
            _ => [self.value(Kind::Double), highest],
        }
    }

    /// The ends of a range of doubles, far out, with just these ends infinite: finite ones are the
    /// largest, ones whose squares are about as large, or any.
    pub fn far_range(&mut self, [low, high]: [bool; 2]) -> [u64; 2] {
        let infinity = BINARY64.infinity();
        let [lowest, highest] = [BINARY64.negate(infinity), infinity];
        let finite = |random: &mut Random| {
            let fields = match random.below(8) {
                0..=2 => 2046..2047,
                3 | 4 => 2040..2047,
                5 => 1023 + 509..1023 + 515,
                _ => 0..2047,
            };
            let field = random.within(fields) as u64;
            random.in_field(&BINARY64, field)
        };
        match (low, high) {
            (true, true) => match self.below(4) {
                0 => [lowest; 2],
                1 => [highest; 2],
                _ => [lowest, highest],
            },
            (true, false) => [lowest, finite(self)],
            (false, true) => [finite(self), highest],
            (false, false) => {
                let (one, another) = (finite(self), finite(self));
                match rank(Kind::Double, one) <= rank(Kind::Double, another) {
                    true => [one, another],
                    false => [another, one],
                }
            }
        }
    }

    /// The ends of a range from this finite double or to it, of few numbers or of many, or of it alone.
    pub fn range_from(&mut self, word: u64) -> [u64; 2] {
        let one = rank(Kind::Double, word);
        let most = BINARY64.infinity() as i64 - 1;
        let apart = self.within(-4..5) << self.below(54);
        let another = one.saturating_add(apart).clamp(-most, most);
        [one.min(another), one.max(another)].map(|rank| self.of_rank(Kind::Double, rank))
    }

    /// The ends of an input's range: equal, neighbours, anything to anything, to infinity.
    pub fn range(&mut self, kind: Kind) -> [u64; 2] {
        let [lowest, highest] = match kind {
            Kind::Double => [BINARY64.negate(BINARY64.infinity()), BINARY64.infinity()],
            Kind::Whole => [i64::MIN as u64, i64::MAX as u64],
        };
        let one = self.value(kind);
        let another = match self.below(4) {
            // The same number: of the zeros, either.
            0 => self.of_rank(kind, rank(kind, one)),
            1 => {
                let beside = rank(kind, one).saturating_add(self.within(-3..4));
                let beside = beside.clamp(rank(kind, lowest), rank(kind, highest));
                self.of_rank(kind, beside)
            }
            _ => self.value(kind),
        };
        match self.below(8) {
            0 => [lowest, highest],
            1 => [lowest, one],
            2 => [one, highest],
            _ if rank(kind, one) <= rank(kind, another) => [one, another],
            _ => [another, one],
        }
    }

    /// The ends of an input's range on which most steps have a range too: `range`'s in a quarter
    /// of the cases, else moderate numbers, on both sides of zero or on one, and some subnormal.
    pub fn declared_range(&mut self, kind: Kind) -> [u64; 2] {
        let one = self.moderate(kind);
        let another = match self.below(8) {
            0 | 1 => return self.range(kind),
            2 => {
                let beside = rank(kind, one) + self.within(-3..4);
                self.of_rank(kind, beside)
            }
            // On the same side of zero.
            3 | 4 => match (kind, rank(kind, one) < 0) {
                (Kind::Double, true) => self.moderate(kind) | BINARY64.sign_bit(),
                (Kind::Double, false) => BINARY64.fabs(self.moderate(kind)),
                (Kind::Whole, true) => -(self.moderate(kind) as i64).abs() as u64,
                (Kind::Whole, false) => (self.moderate(kind) as i64).unsigned_abs(),
            },
            _ => self.moderate(kind),
        };
        if rank(kind, one) <= rank(kind, another) {
            [one, another]
        } else {
            [another, one]
        }
    }

    /// A number on which most steps don't refuse: a double of magnitude from 1/8 to 2^20, at times
    /// subnormal or up to 2^63; a whole number that is an ordinary power, at times one near 2^53.
    fn moderate(&mut self, kind: Kind) -> u64 {
        match kind {
            Kind::Double => match self.below(16) {
                0 => self.subnormal(&BINARY64),
                1 => {
                    let field = 1023 + self.below(64);
                    self.in_field(&BINARY64, field)
                }
                2..=5 => self.ordinary(kind),
                6..=8 => (self.within(-64..65) as f64 / 8.0).to_bits(),
                9 => self.one_of(&DOUBLES[..12]),
                _ => {
                    let field = 1020 + self.below(23);
                    self.in_field(&BINARY64, field)
                }
            },
            Kind::Whole => match self.below(16) {
                0 => (self.one_of(&[1, -1]) * ((1i64 << 53) + self.within(-3..4))) as u64,
                1 => (self.word() as i64 >> self.within(4..40)) as u64,
                2 | 3 => self.within(-1100..1101) as u64,
                _ => self.within(-70..71) as u64,
            },
        }
    }

    /// A value in a range, for a promise that holds of all of them: an end, the number beside one,
    /// either zero, a subnormal or small number, an edge, or any.
    pub fn declared(&mut self, kind: Kind, [p, q]: [u64; 2]) -> u64 {
        let [low, high] = [p, q].map(|end| rank(kind, end));
        let chosen = match self.below(16) {
            0..=2 => return p,
            3..=5 => return q,
            6 => low.saturating_add(1),
            7 => high.saturating_sub(1),
            8 => 0,
            9 => self.within(-1 << 52..1 << 52) >> self.below(52),
            10 => rank(kind, self.moderate(kind)),
            11 => rank(kind, self.value(kind)),
            _ => self.between(low, high),
        };
        let chosen = if chosen < low || chosen > high {
            self.between(low, high)
        } else {
            chosen
        };
        self.of_rank(kind, chosen)
    }

    /// A number from low to high, each equally likely.
    fn between(&mut self, low: i64, high: i64) -> i64 {
        let width = high.abs_diff(low);
        low.wrapping_add_unsigned(self.below(width.saturating_add(1)))
    }

    /// A value in a range: an end in half of the cases.
    pub fn inside(&mut self, kind: Kind, [p, q]: [u64; 2]) -> u64 {
        let [low, high] = [p, q].map(|end| rank(kind, end));
        let chosen = match self.below(4) {
            0 => low,
            1 => high,
            2 => self.word() as i64,
            _ => rank(kind, self.value(kind)),
        };
        if chosen == low && self.below(2) == 0 {
            return p;
        }
        let chosen = if chosen < low || chosen > high {
            self.between(low, high)
        } else {
            chosen
        };
        self.of_rank(kind, chosen)
    }

    /// A value outside a range, just outside in half of the cases, or a NaN; none where every value
    /// lies inside.
    pub fn outside(&mut self, kind: Kind, [p, q]: [u64; 2]) -> Option<u64> {
        let [low, high] = [p, q].map(|end| rank(kind, end));
        let (lowest, highest) = match kind {
            Kind::Double => (-(BINARY64.infinity() as i64), BINARY64.infinity() as i64),
            Kind::Whole => (i64::MIN, i64::MAX),
        };
        let mut choices = Vec::new();
        if low > lowest {
            choices.extend([low - 1, low - 1, lowest]);
            choices.push(lowest.wrapping_add_unsigned(self.below(low.abs_diff(lowest))));
        }
        if high < highest {
            choices.extend([high + 1, high + 1, highest]);
            choices.push(highest.wrapping_sub_unsigned(self.below(high.abs_diff(highest))));
        }
        if kind == Kind::Double && (choices.is_empty() || self.below(4) == 0) {
            return Some(self.nan());
        }
        if choices.is_empty() {
            return None;
        }
        let chosen = self.one_of(&choices);
        Some(self.of_rank(kind, chosen))
    }

    /// A NaN of either sign, quiet or signalling.
    pub fn nan(&mut self) -> u64 {
        let payload = match self.below(4) {
            0 => 1,
            1 => 1 << 51,
            _ => 1 + self.below((1 << 52) - 1),
        };
        (self.word() & BINARY64.sign_bit()) | BINARY64.infinity() | payload
    }

    /// A constant that makes steps refuse: fmod, remainder, sums and products (20), the steps with
    /// whole answers, ldexp, sums and products (21), or the turn to a double (22).
    pub fn troublesome(&mut self, refusal: u64) -> (Kind, u64) {
        let infinity = BINARY64.infinity() | (self.word() & BINARY64.sign_bit());
        let zero = self.word() & BINARY64.sign_bit();
        let near = |random: &mut Random, n: i64| n.saturating_add(random.within(-2..3)) as u64;
        match refusal {
            20 => (Kind::Double, self.one_of(&[zero, infinity])),
            21 => match self.below(5) {
                0 => {
                    let beyond = self.one_of(&[0x43e0000000000000, 0xc3e0000000000001, infinity]);
                    (Kind::Double, beyond)
                }
                4 => {
                    let field = self.one_of(&[2045, 2046]);
                    (Kind::Double, self.in_field(&BINARY64, field))
                }
                1 => (Kind::Whole, self.within(1..2100) as u64),
                2 => (Kind::Whole, near(self, i64::MIN)),
                _ => (Kind::Whole, near(self, i64::MAX)),
            },
            _ => {
                let beyond = (1 << 53) + 1 + (self.below(4) * self.below(1 << 60)) as i64;
                let signed = if self.below(2) == 0 { beyond } else { -beyond };
                (Kind::Whole, signed as u64)
            }
        }
    }
}

#[cfg(test)]
mod tests {
    use super::*;
    use crate::reference::recipe::Way;
    use std::cmp::Ordering::{Greater, Less};

    fn lies(kind: Kind, [p, q]: [u64; 2], word: u64) -> bool {
        !kind.is_nan(word)
            && kind.compare(Way::Exact, word, p) != Less
            && kind.compare(Way::Exact, word, q) != Greater
    }

    #[test]
    fn inside_and_outside_are_what_they_say() {
        let mut random = Random::new(11);
        for kind in [Kind::Double, Kind::Whole] {
            let (mut ends, mut beside, mut nans) = (0, 0, 0);
            for _ in 0..20_000 {
                let range = random.range(kind);
                assert!(!range.iter().any(|&end| kind.is_nan(end)));
                assert!(kind.compare(Way::Exact, range[0], range[1]) != Greater);
                let word = random.inside(kind, range);
                assert!(lies(kind, range, word), "{word:x} in {range:x?}");
                ends += range.contains(&word) as u64;
                if let Some(word) = random.outside(kind, range) {
                    assert!(!lies(kind, range, word), "{word:x} outside {range:x?}");
                    nans += kind.is_nan(word) as u64;
                    let ranks = range.map(|end| rank(kind, end).abs_diff(rank(kind, word)));
                    beside += (!kind.is_nan(word) && ranks.contains(&1)) as u64;
                }
            }
            assert!(ends > 2000 && beside > 2000, "{ends} {beside}");
            assert!(kind == Kind::Whole || nans > 2000, "{nans}");
        }
    }

    #[test]
    fn integers_and_single_numbers_are_what_they_say() {
        let mut random = Random::new(20);
        let (mut beyond, mut zeros, mut ends) = (0, [0; 2], [0; 4]);
        for _ in 0..20_000 {
            let word = random.integral();
            let double = f64::from_bits(word);
            assert!(double.is_finite() && double.fract() == 0.0, "{double:e}");
            beyond += (double.abs() >= 9007199254740992.0) as u64;
            zeros[0] += (word == 0) as u64;
            zeros[1] += (word == BINARY64.sign_bit()) as u64;
            let [low, high] = random.one_number();
            assert!(Kind::Double.compare(Way::Exact, low, high).is_eq());
            let double = f64::from_bits(low);
            ends[0] += (double.is_finite() && double.fract() == 0.0) as u64;
            ends[1] += (double.fract() != 0.0) as u64;
            ends[2] += double.is_infinite() as u64;
            // The two zeros.
            ends[3] += (low != high) as u64;
        }
        assert!(beyond > 2000, "{beyond}");
        assert!(zeros.iter().all(|&n| n > 300), "{zeros:?}");
        assert!(ends.iter().all(|&n| n > 300), "{ends:?}");
    }

    #[test]
    fn declared_ranges_and_values_are_what_they_say() {
        let mut random = Random::new(19);
        for kind in [Kind::Double, Kind::Whole] {
            let (mut ends, mut beside, mut zeros, mut one_sided) = (0, 0, [0; 2], 0);
            for _ in 0..20_000 {
                let range = random.declared_range(kind);
                assert!(!range.iter().any(|&end| kind.is_nan(end)));
                assert!(kind.compare(Way::Exact, range[0], range[1]) != Greater);
                one_sided += !lies(kind, range, 0) as u64;
                let word = random.declared(kind, range);
                assert!(lies(kind, range, word), "{word:x} in {range:x?}");
                let ranks = range.map(|end| rank(kind, end).abs_diff(rank(kind, word)));
                ends += ranks.contains(&0) as u64;
                beside += ranks.contains(&1) as u64;
                zeros[0] += (word == 0) as u64;
                zeros[1] += (word == BINARY64.sign_bit()) as u64;
            }
            assert!(ends > 5000 && beside > 2000, "{ends} {beside}");
            assert!(one_sided > 5000, "{one_sided}");
            assert!(
                kind == Kind::Whole || zeros.iter().all(|&n| n > 100),
                "{zeros:?}"
            );
        }
    }
}
