//! The IEEE binary formats: a pattern's fields, its class, and the whole number it stands for.
//!
//! A pattern is a `u64` in which only the format's own bits are used. Everything is stated once,
//! over the field sizes.

use super::natural::Natural;

/// A format, by the sizes of its fields. The sign is one bit above them.
#[derive(Clone, Copy, Debug, PartialEq, Eq)]
pub struct Format {
    pub fraction_bits: u32,
    pub exponent_bits: u32,
}

pub const BINARY64: Format = Format::new(52, 11);
pub const BINARY32: Format = Format::new(23, 8);
pub const BINARY16: Format = Format::new(10, 5);

/// What document 01's classify numbers.
#[derive(Clone, Copy, Debug, PartialEq, Eq)]
pub enum Class {
    Nan = 0,
    Infinite = 1,
    Zero = 2,
    Subnormal = 3,
    Normal = 4,
}

impl Format {
    pub const fn new(fraction_bits: u32, exponent_bits: u32) -> Format {
        Format {
            fraction_bits,
            exponent_bits,
        }
    }

    /// Bits of a pattern.
    pub const fn width(&self) -> u32 {
        1 + self.exponent_bits + self.fraction_bits
    }

    pub const fn sign_bit(&self) -> u64 {
        1 << (self.exponent_bits + self.fraction_bits)
    }

    pub const fn largest_exponent_field(&self) -> u64 {
        (1 << self.exponent_bits) - 1
    }

    /// The exponent field of 1.0.
    pub const fn bias(&self) -> u64 {
        (1 << (self.exponent_bits - 1)) - 1
    }

    /// The pattern of positive infinity.
    pub const fn infinity(&self) -> u64 {
        self.largest_exponent_field() << self.fraction_bits
    }

    /// The NaN that a refusal returns: positive, quiet, and nothing else in its fraction.
    pub const fn default_nan(&self) -> u64 {
        self.quieted(self.infinity())
    }

    pub const fn is_negative(&self, x: u64) -> bool {
        x & self.sign_bit() != 0
    }

    pub const fn exponent_field(&self, x: u64) -> u64 {
        x >> self.fraction_bits & self.largest_exponent_field()
    }

    pub const fn fraction(&self, x: u64) -> u64 {
        x % (1 << self.fraction_bits)
    }

    pub const fn classify(&self, x: u64) -> Class {
        let largest = self.largest_exponent_field();
        match (self.exponent_field(x), self.fraction(x)) {
            (0, 0) => Class::Zero,
            (0, _) => Class::Subnormal,
            (field, 0) if field == largest => Class::Infinite,
            (field, _) if field == largest => Class::Nan,
            _ => Class::Normal,
        }
    }

    /// The same pattern with the top fraction bit set.
    pub const fn quieted(&self, x: u64) -> u64 {
        x | 1 << (self.fraction_bits - 1)
    }

    /// The first NaN of two operands, if there is one.
    pub fn first_nan(&self, x: u64, y: u64) -> Option<u64> {
        [x, y]
            .into_iter()
            .find(|&operand| self.classify(operand) == Class::Nan)
    }

    /// Clears the sign bit, of a NaN too; nothing else changes.
    pub const fn fabs(&self, x: u64) -> u64 {
        x & !self.sign_bit()
    }

    /// Flips the sign bit, of a NaN too; nothing else changes.
    pub const fn negate(&self, x: u64) -> u64 {
        x ^ self.sign_bit()
    }

    /// The power of two that 1.0 is in units. Its fraction is 0 and its exponent field the bias,
    /// so it counts 2^F times 2^(bias - 1).
    pub const fn one_log2(&self) -> u32 {
        self.fraction_bits + self.bias() as u32 - 1
    }

    /// The power of two that infinity would be in units, were it a number by the same rule: its
    /// fraction is 0 and its exponent field the largest. Every finite number counts less, and a
    /// result that counts as much has overflowed.
    pub const fn infinity_log2(&self) -> u32 {
        self.fraction_bits + self.largest_exponent_field() as u32 - 1
    }

    /// How many units a finite x counts, its sign left aside.
    pub fn magnitude(&self, x: u64) -> Natural {
        let (e, m) = (self.exponent_field(x), self.fraction(x));
        assert!(e < self.largest_exponent_field(), "{x:x} is not finite");
        if e == 0 {
            Natural::from(m)
        } else {
            &Natural::from((1 << self.fraction_bits) + m) << (e as u32 - 1)
        }
    }

    /// The sign-less pattern that stands for so many units. The number's size tells the exponent
    /// field: a normal number is F + 1 digits times 2^(e - 1). Stops where no pattern stands for
    /// the number.
    pub fn encode(&self, units: &Natural) -> u64 {
        let digits = self.fraction_bits + 1;
        if units.size() < digits {
            return units.to_u64().expect("a fraction is a word");
        }
        let spare = units.size() - digits;
        let (significand, rest) = units.div_rem_power_of_two(spare);
        assert!(rest.is_zero(), "more than {digits} digits");
        let e = spare as u64 + 1;
        let m = significand.to_u64().expect("a word") - (1 << self.fraction_bits);
        assert!(e < self.largest_exponent_field(), "beyond the largest");
        (e << self.fraction_bits) + m
    }

    /// A number that orders patterns as their values: the two zeros are equal, the infinities lie
    /// at the ends. Sign-less patterns count up with the numbers they stand for, so the count is
    /// the order. A NaN has no place in it.
    pub const fn rank(&self, x: u64) -> i64 {
        let count = self.fabs(x) as i64;
        if self.is_negative(x) {
            -count
        } else {
            count
        }
    }
}
