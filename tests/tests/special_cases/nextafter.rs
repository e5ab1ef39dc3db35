//! nextafter.

use crate::check;
use estrenwind_tests::answer::Answer;

/// Width, operands, answer.
#[rustfmt::skip]
const NEXTAFTER: &[(u32, [u64; 2], u64)] = &[
    // Source 002, 27.11.3: the next representable value after x in the direction of y.
    (64, [0x3ff0000000000000, 0x4000000000000000], 0x3ff0000000000001), // 1 towards 2
    (64, [0x3ff0000000000000, 0x0000000000000000], 0x3fefffffffffffff), // 1 towards 0
    (64, [0xbff0000000000000, 0x4000000000000000], 0xbfefffffffffffff), // -1 towards 2
    (64, [0xbff0000000000000, 0xc000000000000000], 0xbff0000000000001), // -1 towards -2
    (64, [0x3ff0000000000000, 0x3ff0000000000001], 0x3ff0000000000001), // y itself is next
    (64, [0x3ff0000000000000, 0x7ff0000000000000], 0x3ff0000000000001),
    (64, [0x3ff0000000000000, 0xfff0000000000000], 0x3fefffffffffffff),
    (32, [0x3f800000, 0x40000000], 0x3f800001),
    (32, [0x3f800000, 0x00000000], 0x3f7fffff),
    (32, [0xbf800000, 0x40000000], 0xbf7fffff),
    (32, [0xbf800000, 0xc0000000], 0xbf800001),
    (32, [0x3f800000, 0x3f800001], 0x3f800001),
    (32, [0x3f800000, 0x7f800000], 0x3f800001),
    (32, [0x3f800000, 0xff800000], 0x3f7fffff),
    // The same: y if x equals y, which of two zeros is the second.
    (64, [0x3ff0000000000000, 0x3ff0000000000000], 0x3ff0000000000000),
    (64, [0x0000000000000000, 0x8000000000000000], 0x8000000000000000),
    (64, [0x8000000000000000, 0x0000000000000000], 0x0000000000000000),
    (64, [0x8000000000000000, 0x8000000000000000], 0x8000000000000000),
    (64, [0x7ff0000000000000, 0x7ff0000000000000], 0x7ff0000000000000),
    (64, [0xfff0000000000000, 0xfff0000000000000], 0xfff0000000000000),
    (64, [0xffefffffffffffff, 0xffefffffffffffff], 0xffefffffffffffff),
    (32, [0x3f800000, 0x3f800000], 0x3f800000),
    (32, [0x00000000, 0x80000000], 0x80000000),
    (32, [0x80000000, 0x00000000], 0x00000000),
    (32, [0x80000000, 0x80000000], 0x80000000),
    (32, [0x7f800000, 0x7f800000], 0x7f800000),
    (32, [0xff800000, 0xff800000], 0xff800000),
    (32, [0xff7fffff, 0xff7fffff], 0xff7fffff),
    // Document 01: from zero, the smallest subnormal number of y's sign.
    (64, [0x0000000000000000, 0x3ff0000000000000], 0x0000000000000001),
    (64, [0x0000000000000000, 0xbff0000000000000], 0x8000000000000001),
    (64, [0x8000000000000000, 0x3ff0000000000000], 0x0000000000000001),
    (64, [0x8000000000000000, 0xfff0000000000000], 0x8000000000000001),
    (64, [0x8000000000000000, 0x0000000000000001], 0x0000000000000001),
    (32, [0x00000000, 0x3f800000], 0x00000001),
    (32, [0x00000000, 0xbf800000], 0x80000001),
    (32, [0x80000000, 0x3f800000], 0x00000001),
    (32, [0x80000000, 0xff800000], 0x80000001),
    (32, [0x80000000, 0x00000001], 0x00000001),
    // Document 01: a zero reached from a subnormal number keeps x's sign.
    (64, [0x0000000000000001, 0xbff0000000000000], 0x0000000000000000),
    (64, [0x0000000000000001, 0x8000000000000000], 0x0000000000000000),
    (64, [0x8000000000000001, 0x3ff0000000000000], 0x8000000000000000),
    (64, [0x8000000000000001, 0x0000000000000000], 0x8000000000000000),
    (32, [0x00000001, 0xbf800000], 0x00000000),
    (32, [0x00000001, 0x80000000], 0x00000000),
    (32, [0x80000001, 0x3f800000], 0x80000000),
    (32, [0x80000001, 0x00000000], 0x80000000),
    // Between subnormal and normal numbers, and from infinity back.
    (64, [0x000fffffffffffff, 0x3ff0000000000000], 0x0010000000000000),
    (64, [0x8010000000000000, 0x0000000000000000], 0x800fffffffffffff),
    (64, [0x7ff0000000000000, 0x0000000000000000], 0x7fefffffffffffff),
    (64, [0xfff0000000000000, 0x7ff0000000000000], 0xffefffffffffffff),
    (64, [0x7feffffffffffffe, 0x7ff0000000000000], 0x7fefffffffffffff),
    (32, [0x007fffff, 0x3f800000], 0x00800000),
    (32, [0x80800000, 0x00000000], 0x807fffff),
    (32, [0x7f800000, 0x00000000], 0x7f7fffff),
    (32, [0xff800000, 0x7f800000], 0xff7fffff),
    (32, [0x7f7ffffe, 0x7f800000], 0x7f7fffff),
    // Document 01: the first NaN quieted.
    (64, [0xfff0000000000001, 0x3ff0000000000000], 0xfff8000000000001),
    (64, [0x3ff0000000000000, 0x7ff0000000000002], 0x7ff8000000000002),
    (64, [0x7ff0000000000001, 0xfff8000000000002], 0x7ff8000000000001),
    (64, [0xfff8000000000002, 0x7ff0000000000001], 0xfff8000000000002),
    (64, [0x7fefffffffffffff, 0xfff0000000000001], 0xfff8000000000001),
    (32, [0xff800001, 0x3f800000], 0xffc00001),
    (32, [0x3f800000, 0x7f800002], 0x7fc00002),
    (32, [0x7f800001, 0xffc00002], 0x7fc00001),
    (32, [0xffc00002, 0x7f800001], 0xffc00002),
    (32, [0x7f7fffff, 0xff800001], 0xffc00001),
];

/// Width and operands, from the largest finite number on: refused 3, with the infinity reached.
/// Source 002, 27.11.3: a range error may occur there; annex F.9.8.3: overflow.
#[rustfmt::skip]
const OVERFLOW: &[(u32, [u64; 2], u64)] = &[
    (64, [0x7fefffffffffffff, 0x7ff0000000000000], 0x7ff0000000000000),
    (64, [0xffefffffffffffff, 0xfff0000000000000], 0xfff0000000000000),
    (32, [0x7f7fffff, 0x7f800000], 0x7f800000),
    (32, [0xff7fffff, 0xff800000], 0xff800000),
];

#[test]
fn nextafter_and_its_special_cases() {
    for &(width, operands, answer) in NEXTAFTER {
        check("nextafter", width, operands, Answer::word(answer));
    }
}

#[test]
fn nextafter_refuses_to_overflow() {
    for &(width, operands, infinity) in OVERFLOW {
        check("nextafter", width, operands, Answer::refused(3, infinity));
    }
}
