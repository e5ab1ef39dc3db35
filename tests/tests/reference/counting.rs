//! Small formats, and the number that each of their patterns stands for, found by counting. It is a
//! second way to these numbers, which shares nothing with the reference.

use estrenwind_tests::reference::Format;
use std::ops::Range;

/// From 5 bits up to binary16.
pub const SMALL: [Format; 5] = [
    Format::new(1, 3),
    Format::new(2, 3),
    Format::new(3, 4),
    Format::new(5, 4),
    Format::new(10, 5),
];

/// Those so small that every pair of patterns is tried.
pub const PAIRED: [Format; 4] = [SMALL[0], SMALL[1], SMALL[2], SMALL[3]];

/// Small, but with numbers beyond 2^63: 2^63 and 1.5 · 2^63 are its largest.
pub const WIDE: Format = Format::new(1, 7);

pub struct Counted {
    sign_bit: u64,
    /// Of the finite patterns without sign, in turn.
    units: Vec<u128>,
    /// What would come after them.
    next: u128,
    /// What 1.0 counts.
    pub one: i128,
}

impl Counted {
    /// From one pattern to the next it is one unit in the first two exponent fields, and twice as
    /// many in each field as in the one before.
    pub fn new(format: &Format) -> Counted {
        let fractions = 1 << format.fraction_bits;
        let fields = 1 << format.exponent_bits;
        let mut units = Vec::new();
        let mut next = 0;
        for field in 0..fields - 1 {
            let step = if field < 2 { 1 } else { 1 << (field - 1) };
            for _ in 0..fractions {
                units.push(next);
                next += step;
            }
        }
        Counted {
            sign_bit: fractions * fields,
            one: units[(fields as usize / 2 - 1) * fractions as usize] as i128,
            units,
            next,
        }
    }

    pub fn patterns(&self) -> Range<u64> {
        0..2 * self.sign_bit
    }

    pub fn is_negative(&self, x: u64) -> bool {
        x >= self.sign_bit
    }

    /// The count of patterns without sign up to this one.
    pub fn index(&self, x: u64) -> usize {
        (x % self.sign_bit) as usize
    }

    /// The index of infinity, one past all finite ones.
    pub fn infinity(&self) -> usize {
        self.units.len()
    }

    /// Whether the pattern is finite or an infinity.
    pub fn is_number(&self, x: u64) -> bool {
        self.index(x) <= self.infinity()
    }

    /// The pattern with this index and sign.
    pub fn signed(&self, index: usize, negative: bool) -> u64 {
        index as u64 + if negative { self.sign_bit } else { 0 }
    }

    /// The number of units at an index. Infinity has those that counting on would give it.
    pub fn units(&self, index: usize) -> u128 {
        if index == self.infinity() {
            self.next
        } else {
            self.units[index]
        }
    }

    /// The number of units that a finite pattern stands for.
    pub fn value(&self, x: u64) -> i128 {
        let units = self.units[self.index(x)] as i128;
        if self.is_negative(x) {
            -units
        } else {
            units
        }
    }

    /// The pattern of a number, with the sign given for a zero.
    pub fn pattern(&self, value: i128, negative_zero: bool) -> u64 {
        let index = self.units.binary_search(&value.unsigned_abs());
        let index = index.expect("a number of the format") as u64;
        if value < 0 || value == 0 && negative_zero {
            self.sign_bit + index
        } else {
            index
        }
    }

    /// The count of the pattern nearest to a number of scaled units, found by looking for the first
    /// one that is not below. Infinity counts as the number that would come after the largest, and of
    /// two equally near the pattern that is even is taken.
    pub fn nearest(&self, exact: u128, scaled: impl Fn(u128) -> u128) -> usize {
        let at = |index: usize| scaled(self.units(index));
        let (mut low, mut high) = (0, self.infinity());
        if exact >= at(high) {
            return high;
        }
        while high - low > 1 {
            let middle = (low + high) / 2;
            if at(middle) <= exact {
                low = middle;
            } else {
                high = middle;
            }
        }
        let (below, above) = (exact - at(low), at(high) - exact);
        if below < above || below == above && low % 2 == 0 {
            low
        } else {
            high
        }
    }
}
