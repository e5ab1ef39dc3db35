//! Fields, classes, and the whole numbers that patterns stand for.

use crate::counting::{Counted, SMALL, WIDE};
use estrenwind_tests::reference::natural::Natural;
use estrenwind_tests::reference::{Class, Format, BINARY16, BINARY32, BINARY64};

#[test]
fn the_widths_are_those_of_document_01() {
    assert_eq!((BINARY64.width(), BINARY32.width()), (64, 32));
    assert_eq!((BINARY64.fraction_bits, BINARY32.fraction_bits), (52, 23));
    assert_eq!(BINARY64.largest_exponent_field(), 2047);
    assert_eq!(BINARY32.largest_exponent_field(), 255);
    assert_eq!((BINARY64.one_log2(), BINARY32.one_log2()), (1074, 149));
    assert_eq!(BINARY64.default_nan(), 0x7ff8000000000000);
    assert_eq!(BINARY32.default_nan(), 0x7fc00000);
}

/// W-201 stores binary16: its smallest number is 2^-24, and 65,504 its largest.
#[test]
fn the_third_width_is_that_of_halves() {
    assert_eq!((BINARY16.width(), BINARY16.fraction_bits), (16, 10));
    assert_eq!(BINARY16.largest_exponent_field(), 31);
    assert_eq!(BINARY16.one_log2(), 24);
    assert_eq!(BINARY16.default_nan(), 0x7e00);
    let largest = &Natural::from(65_504) << BINARY16.one_log2();
    assert_eq!(BINARY16.magnitude(0x7bff), largest);
}

#[test]
fn numbers_at_the_widths_in_use() {
    let units = |significand: u64, exponent: u32| &Natural::from(significand) << exponent;
    for (format, x, expected) in [
        (BINARY64, 0x8000000000000000, units(0, 0)), // -0
        (BINARY64, 0x0000000000000001, units(1, 0)), // the smallest
        (BINARY64, 0x000fffffffffffff, units(0xfffffffffffff, 0)), // the largest subnormal
        (BINARY64, 0x0010000000000000, units(1, 52)), // the smallest normal
        (BINARY64, 0x3ff0000000000000, units(1, 1074)), // 1
        (BINARY64, 0xc008000000000000, units(3, 1074)), // -3
        (BINARY64, 0x7fefffffffffffff, units(0x1fffffffffffff, 2045)), // the largest
        (BINARY32, 0x80000000, units(0, 0)),
        (BINARY32, 0x00000001, units(1, 0)),
        (BINARY32, 0x007fffff, units(0x7fffff, 0)),
        (BINARY32, 0x00800000, units(1, 23)),
        (BINARY32, 0x3f800000, units(1, 149)),
        (BINARY32, 0xc0400000, units(3, 149)),
        (BINARY32, 0x7f7fffff, units(0xffffff, 253)),
        (BINARY16, 0x8000, units(0, 0)),
        (BINARY16, 0x0001, units(1, 0)),
        (BINARY16, 0x03ff, units(0x3ff, 0)),
        (BINARY16, 0x0400, units(1, 10)),
        (BINARY16, 0x3c00, units(1, 24)),
        (BINARY16, 0xc200, units(3, 24)),
        (BINARY16, 0x7bff, units(0x7ff, 29)),
    ] {
        assert_eq!(format.magnitude(x), expected, "{x:x}");
        assert_eq!(format.encode(&expected), format.fabs(x), "{x:x}");
    }
}

#[test]
fn a_pattern_stands_for_the_number_that_counting_gives() {
    for format in SMALL.iter().chain([&WIDE]) {
        let counted = Counted::new(format);
        for x in counted.patterns() {
            if counted.index(x) < counted.infinity() {
                let value = counted.value(x).unsigned_abs();
                let high = &Natural::from((value >> 64) as u64) << 64;
                let units = &high + &Natural::from(value as u64);
                assert_eq!(format.magnitude(x), units, "{format:?} {x:x}");
                assert_eq!(format.encode(&units), format.fabs(x), "{format:?} {x:x}");
            }
        }
    }
}

#[test]
#[should_panic(expected = "digits")]
fn a_number_between_two_patterns_has_none() {
    Format::new(3, 4).encode(&Natural::from(33));
}

#[test]
#[should_panic(expected = "beyond the largest")]
fn a_number_beyond_the_largest_has_none() {
    Format::new(3, 4).encode(&Natural::power_of_two(17));
}

/// Patterns without sign come in the order zero, subnormal, normal, infinity, NaN.
#[test]
fn classes_follow_each_other() {
    for format in SMALL {
        let counted = Counted::new(&format);
        let smallest_normal = 1 << format.fraction_bits;
        for x in counted.patterns() {
            let expected = match counted.index(x) {
                0 => Class::Zero,
                index if index < smallest_normal => Class::Subnormal,
                index if index < counted.infinity() => Class::Normal,
                index if index == counted.infinity() => Class::Infinite,
                _ => Class::Nan,
            };
            assert_eq!(format.classify(x), expected, "{format:?} {x:x}");
        }
    }
}

#[test]
fn only_the_bit_named_changes() {
    for format in SMALL {
        let sign = 1 << (format.width() - 1);
        let top_of_fraction = 1 << (format.fraction_bits - 1);
        for x in 0..2 * sign {
            assert_eq!(format.fabs(x), x % sign, "{format:?} {x:x}");
            assert_eq!(
                format.negate(x),
                (x + sign) % (2 * sign),
                "{format:?} {x:x}"
            );
            let is_set = x / top_of_fraction % 2 == 1;
            let quieted = if is_set { x } else { x + top_of_fraction };
            assert_eq!(format.quieted(x), quieted, "{format:?} {x:x}");
        }
    }
}

/// The order that the laws are stated in is that of the numbers, an infinity beyond them all.
#[test]
fn rank_orders_patterns_as_numbers() {
    for format in [Format::new(1, 3), Format::new(3, 4)] {
        let counted = Counted::new(&format);
        let value = |x| match (
            counted.index(x) == counted.infinity(),
            counted.is_negative(x),
        ) {
            (true, false) => i128::MAX,
            (true, true) => i128::MIN,
            (false, _) => counted.value(x),
        };
        let numbers = || {
            let all = counted.patterns();
            all.filter(|&x| counted.index(x) <= counted.infinity())
        };
        for x in numbers() {
            for y in numbers() {
                let expected = value(x).cmp(&value(y));
                assert_eq!(format.rank(x).cmp(&format.rank(y)), expected, "{x:x} {y:x}");
            }
        }
    }
}
