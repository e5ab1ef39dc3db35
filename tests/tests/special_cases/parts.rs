//! modf and frexp.

use crate::check;
use estrenwind_tests::answer::Answer;

/// Width, operand, integer part, fractional part.
#[rustfmt::skip]
const MODF: &[(u32, u64, u64, u64)] = &[
    // Source 002, 27.6.12: integral and fractional parts, each with the sign of the argument.
    (64, 0x400a000000000000, 0x4008000000000000, 0x3fd0000000000000), // 3.25 -> 3, 0.25
    (64, 0xc00a000000000000, 0xc008000000000000, 0xbfd0000000000000), // -3.25 -> -3, -0.25
    (64, 0x3fe0000000000000, 0x0000000000000000, 0x3fe0000000000000), // 0.5 -> 0, 0.5
    (64, 0xbfe0000000000000, 0x8000000000000000, 0xbfe0000000000000), // -0.5 -> -0, -0.5
    (64, 0x4008000000000000, 0x4008000000000000, 0x0000000000000000), // 3 -> 3, 0
    (64, 0xc008000000000000, 0xc008000000000000, 0x8000000000000000), // -3 -> -3, -0
    (32, 0x40500000, 0x40400000, 0x3e800000),
    (32, 0xc0500000, 0xc0400000, 0xbe800000),
    (32, 0x3f000000, 0x00000000, 0x3f000000),
    (32, 0xbf000000, 0x80000000, 0xbf000000),
    (32, 0x40400000, 0x40400000, 0x00000000),
    (32, 0xc0400000, 0xc0400000, 0x80000000),
    // Annex F.9.3.12: an infinity gives itself and a zero of its sign.
    (64, 0x7ff0000000000000, 0x7ff0000000000000, 0x0000000000000000),
    (64, 0xfff0000000000000, 0xfff0000000000000, 0x8000000000000000),
    (32, 0x7f800000, 0x7f800000, 0x00000000),
    (32, 0xff800000, 0xff800000, 0x80000000),
    // The same: a NaN gives a NaN twice. Document 01 says which: the same pattern, quieted.
    (64, 0x7ff8000000000000, 0x7ff8000000000000, 0x7ff8000000000000),
    (64, 0xfff0000000000001, 0xfff8000000000001, 0xfff8000000000001),
    (64, 0x7ff40000deadbeef, 0x7ffc0000deadbeef, 0x7ffc0000deadbeef),
    (32, 0x7fc00000, 0x7fc00000, 0x7fc00000),
    (32, 0xff800001, 0xffc00001, 0xffc00001),
    (32, 0x7fa0beef, 0x7fe0beef, 0x7fe0beef),
    // Document 01: each with x's sign, zeros too.
    (64, 0x0000000000000000, 0x0000000000000000, 0x0000000000000000),
    (64, 0x8000000000000000, 0x8000000000000000, 0x8000000000000000),
    (32, 0x00000000, 0x00000000, 0x00000000),
    (32, 0x80000000, 0x80000000, 0x80000000),
    // The smallest number, the last with a fraction, the first without, and the largest.
    (64, 0x8000000000000001, 0x8000000000000000, 0x8000000000000001),
    (64, 0x432fffffffffffff, 0x432ffffffffffffe, 0x3fe0000000000000), // 2^52 - 0.5
    (64, 0x4330000000000001, 0x4330000000000001, 0x0000000000000000), // 2^52 + 1
    (64, 0xffefffffffffffff, 0xffefffffffffffff, 0x8000000000000000),
    (32, 0x80000001, 0x80000000, 0x80000001),
    (32, 0x4affffff, 0x4afffffe, 0x3f000000), // 2^23 - 0.5
    (32, 0x4b000001, 0x4b000001, 0x00000000),
    (32, 0xff7fffff, 0xff7fffff, 0x80000000),
    // A fraction that loses its leading digits: 1 + 2^-52, and 1 + 2^-23.
    (64, 0x3ff0000000000001, 0x3ff0000000000000, 0x3cb0000000000000),
    (32, 0x3f800001, 0x3f800000, 0x34000000),
];

/// Width, operand, fraction, exponent.
#[rustfmt::skip]
const FREXP: &[(u32, u64, u64, i64)] = &[
    // Source 002, 27.6.4: a magnitude in [1/2, 1), and x is that times the power of two.
    (64, 0x3ff0000000000000, 0x3fe0000000000000, 1), // 1 = 0.5 · 2^1
    (64, 0x3fe0000000000000, 0x3fe0000000000000, 0), // 0.5 = 0.5 · 2^0
    (64, 0x3fefffffffffffff, 0x3fefffffffffffff, 0), // just below 1
    (64, 0xc008000000000000, 0xbfe8000000000000, 2), // -3 = -0.75 · 2^2
    (64, 0x3fd0000000000000, 0x3fe0000000000000, -1), // 0.25 = 0.5 · 2^-1
    (32, 0x3f800000, 0x3f000000, 1),
    (32, 0x3f000000, 0x3f000000, 0),
    (32, 0x3f7fffff, 0x3f7fffff, 0),
    (32, 0xc0400000, 0xbf400000, 2),
    (32, 0x3e800000, 0x3f000000, -1),
    // The same, and annex F.9.3.4: of a zero, both parts are zero, the sign kept.
    (64, 0x0000000000000000, 0x0000000000000000, 0),
    (64, 0x8000000000000000, 0x8000000000000000, 0),
    (32, 0x00000000, 0x00000000, 0),
    (32, 0x80000000, 0x80000000, 0),
    // Annex F.9.3.4: infinities return themselves, with an exponent of which document 01 says 0.
    (64, 0x7ff0000000000000, 0x7ff0000000000000, 0),
    (64, 0xfff0000000000000, 0xfff0000000000000, 0),
    (32, 0x7f800000, 0x7f800000, 0),
    (32, 0xff800000, 0xff800000, 0),
    // The same of NaNs, quieted.
    (64, 0x7ff8000000000000, 0x7ff8000000000000, 0),
    (64, 0xfff0000000000001, 0xfff8000000000001, 0),
    (64, 0x7ff7ffffffffffff, 0x7fffffffffffffff, 0),
    (32, 0x7fc00000, 0x7fc00000, 0),
    (32, 0xff800001, 0xffc00001, 0),
    (32, 0x7fbfffff, 0x7fffffff, 0),
    // From the smallest number to the largest.
    (64, 0x8000000000000001, 0xbfe0000000000000, -1073),
    (64, 0x0000000000000003, 0x3fe8000000000000, -1072),
    (64, 0x000fffffffffffff, 0x3feffffffffffffe, -1022),
    (64, 0x0010000000000000, 0x3fe0000000000000, -1021),
    (64, 0xffefffffffffffff, 0xbfefffffffffffff, 1024),
    (32, 0x80000001, 0xbf000000, -148),
    (32, 0x00000003, 0x3f400000, -147),
    (32, 0x007fffff, 0x3f7ffffe, -126),
    (32, 0x00800000, 0x3f000000, -125),
    (32, 0xff7fffff, 0xbf7fffff, 128),
];

#[test]
fn modf_and_its_special_cases() {
    for &(width, x, whole, fraction) in MODF {
        check("modf", width, [x, 0], Answer::pair(whole, fraction));
    }
}

#[test]
fn frexp_and_its_special_cases() {
    for &(width, x, fraction, exponent) in FREXP {
        check(
            "frexp",
            width,
            [x, 0],
            Answer::pair(fraction, exponent as u64),
        );
    }
}
