//! The roundings, lround, classify, fabs and negate.

use crate::check;
use estrenwind_tests::answer::Answer;

/// What a row says is asked of each of its functions, at its width: operand, then answer.
struct Group {
    functions: &'static [&'static str],
    width: u32,
    rows: &'static [(u64, u64)],
}

const ROUNDINGS: &[&str] = &["floor", "ceil", "trunc", "round", "nearbyint"];

const GROUPS: &[Group] = &[
    // Sources 000, 001 (ceil), 003 (nearbyint) and 004 (round): ±0 and ±Inf return x. Document 01
    // says it of all five.
    Group {
        functions: ROUNDINGS,
        width: 64,
        rows: &[
            (0x0000000000000000, 0x0000000000000000),
            (0x8000000000000000, 0x8000000000000000),
            (0x7ff0000000000000, 0x7ff0000000000000),
            (0xfff0000000000000, 0xfff0000000000000),
        ],
    },
    Group {
        functions: ROUNDINGS,
        width: 32,
        rows: &[
            (0x00000000, 0x00000000),
            (0x80000000, 0x80000000),
            (0x7f800000, 0x7f800000),
            (0xff800000, 0xff800000),
        ],
    },
    // The same sources: a NaN returns a NaN. Document 01 says which: the same pattern, quieted.
    Group {
        functions: ROUNDINGS,
        width: 64,
        rows: &[
            (0x7ff8000000000000, 0x7ff8000000000000),
            (0xfff8000000000000, 0xfff8000000000000),
            (0x7ff0000000000001, 0x7ff8000000000001),
            (0xfff0000000000001, 0xfff8000000000001),
            (0x7ff7ffffffffffff, 0x7fffffffffffffff),
            (0xffffffffffffffff, 0xffffffffffffffff),
            (0x7ffc0000deadbeef, 0x7ffc0000deadbeef),
            (0xfff40000deadbeef, 0xfffc0000deadbeef),
        ],
    },
    Group {
        functions: ROUNDINGS,
        width: 32,
        rows: &[
            (0x7fc00000, 0x7fc00000),
            (0xffc00000, 0xffc00000),
            (0x7f800001, 0x7fc00001),
            (0xff800001, 0xffc00001),
            (0x7fbfffff, 0x7fffffff),
            (0xffffffff, 0xffffffff),
            (0x7fe0beef, 0x7fe0beef),
            (0xffa0beef, 0xffe0beef),
        ],
    },
    // Source 000's method for ceil, exponent below 0: a zero of the input's sign up to 0, else 1.
    Group {
        functions: &["ceil"],
        width: 64,
        rows: &[
            (0xbfefffffffffffff, 0x8000000000000000),
            (0x8000000000000001, 0x8000000000000000),
            (0x0000000000000001, 0x3ff0000000000000),
            (0x3fefffffffffffff, 0x3ff0000000000000),
        ],
    },
    Group {
        functions: &["ceil"],
        width: 32,
        rows: &[
            (0xbf7fffff, 0x80000000),
            (0x80000001, 0x80000000),
            (0x00000001, 0x3f800000),
            (0x3f7fffff, 0x3f800000),
        ],
    },
    // Source 004's method for round, exponent below 0, the right way about as document 01 says:
    // from 0.5 to below 1 one, smaller ones zero, sign kept.
    Group {
        functions: &["round"],
        width: 64,
        rows: &[
            (0x3fe0000000000000, 0x3ff0000000000000),
            (0x3fe0000000000001, 0x3ff0000000000000),
            (0x3fefffffffffffff, 0x3ff0000000000000),
            (0xbfe0000000000000, 0xbff0000000000000),
            (0xbfefffffffffffff, 0xbff0000000000000),
            (0x3fdfffffffffffff, 0x0000000000000000),
            (0xbfdfffffffffffff, 0x8000000000000000),
            (0x3fd0000000000000, 0x0000000000000000),
            (0x0010000000000000, 0x0000000000000000),
            (0x8000000000000001, 0x8000000000000000),
        ],
    },
    Group {
        functions: &["round"],
        width: 32,
        rows: &[
            (0x3f000000, 0x3f800000),
            (0x3f000001, 0x3f800000),
            (0x3f7fffff, 0x3f800000),
            (0xbf000000, 0xbf800000),
            (0xbf7fffff, 0xbf800000),
            (0x3effffff, 0x00000000),
            (0xbeffffff, 0x80000000),
            (0x3e800000, 0x00000000),
            (0x00800000, 0x00000000),
            (0x80000001, 0x80000000),
        ],
    },
    // Sources 000 and 004: an integral x returns x, and from exponent 52 (f32: 23) on there is no
    // fractional part.
    Group {
        functions: ROUNDINGS,
        width: 64,
        rows: &[
            (0x3ff0000000000000, 0x3ff0000000000000),
            (0xc008000000000000, 0xc008000000000000),
            (0x432ffffffffffffe, 0x432ffffffffffffe),
            (0x4330000000000001, 0x4330000000000001),
            (0xffefffffffffffff, 0xffefffffffffffff),
        ],
    },
    Group {
        functions: ROUNDINGS,
        width: 32,
        rows: &[
            (0x3f800000, 0x3f800000),
            (0xc0400000, 0xc0400000),
            (0x4afffffe, 0x4afffffe),
            (0x4b000001, 0x4b000001),
            (0xff7fffff, 0xff7fffff),
        ],
    },
    // Source 002, 27.9.2 and 27.9.8: the largest integer not greater, and the nearest no larger in
    // magnitude, which differ below zero.
    Group {
        functions: &["floor"],
        width: 64,
        rows: &[
            (0x4004000000000000, 0x4000000000000000), //  2.5 ->  2
            (0xc004000000000000, 0xc008000000000000), // -2.5 -> -3
            (0x3fefffffffffffff, 0x0000000000000000), // just below 1 ->  0
            (0x8000000000000001, 0xbff0000000000000), // just below 0 -> -1
        ],
    },
    Group {
        functions: &["floor"],
        width: 32,
        rows: &[
            (0x40200000, 0x40000000),
            (0xc0200000, 0xc0400000),
            (0x3f7fffff, 0x00000000),
            (0x80000001, 0xbf800000),
        ],
    },
    Group {
        functions: &["trunc"],
        width: 64,
        rows: &[
            (0x4004000000000000, 0x4000000000000000), //  2.5 ->  2
            (0xc004000000000000, 0xc000000000000000), // -2.5 -> -2
            (0x3fefffffffffffff, 0x0000000000000000), // just below 1 ->  0
            (0xbfefffffffffffff, 0x8000000000000000), // just above -1 -> -0
        ],
    },
    Group {
        functions: &["trunc"],
        width: 32,
        rows: &[
            (0x40200000, 0x40000000),
            (0xc0200000, 0xc0000000),
            (0x3f7fffff, 0x00000000),
            (0xbf7fffff, 0x80000000),
        ],
    },
    // Source 002, 27.9.6 and document 01: halves away from zero, and halves to even.
    Group {
        functions: &["round"],
        width: 64,
        rows: &[
            (0x3ff8000000000000, 0x4000000000000000), //  1.5 ->  2
            (0x4004000000000000, 0x4008000000000000), //  2.5 ->  3
            (0xc00c000000000000, 0xc010000000000000), // -3.5 -> -4
            (0x432fffffffffffff, 0x4330000000000000), // 2^52 - 0.5 -> 2^52
        ],
    },
    Group {
        functions: &["round"],
        width: 32,
        rows: &[
            (0x3fc00000, 0x40000000),
            (0x40200000, 0x40400000),
            (0xc0600000, 0xc0800000),
            (0x4affffff, 0x4b000000),
        ],
    },
    Group {
        functions: &["nearbyint"],
        width: 64,
        rows: &[
            (0x3fe0000000000000, 0x0000000000000000), //  0.5 ->  0
            (0xbfe0000000000000, 0x8000000000000000), // -0.5 -> -0
            (0x3ff8000000000000, 0x4000000000000000), //  1.5 ->  2
            (0x4004000000000000, 0x4000000000000000), //  2.5 ->  2
            (0xc00c000000000000, 0xc010000000000000), // -3.5 -> -4
            (0x432ffffffffffffd, 0x432ffffffffffffc), // 2^52 - 1.5 -> 2^52 - 2
        ],
    },
    Group {
        functions: &["nearbyint"],
        width: 32,
        rows: &[
            (0x3f000000, 0x00000000),
            (0xbf000000, 0x80000000),
            (0x3fc00000, 0x40000000),
            (0x40200000, 0x40000000),
            (0xc0600000, 0xc0800000),
            (0x4afffffd, 0x4afffffc),
        ],
    },
    // Document 01's classify: 0 NaN, 1 infinite, 2 zero, 3 subnormal, 4 normal. The third to last
    // row is source 002's footnote 8: 2^-140 is normal in one width and subnormal in the other.
    Group {
        functions: &["classify"],
        width: 64,
        rows: &[
            (0x7ff0000000000001, 0),
            (0xffffffffffffffff, 0),
            (0x7ff8000000000000, 0),
            (0x7ff0000000000000, 1),
            (0xfff0000000000000, 1),
            (0x0000000000000000, 2),
            (0x8000000000000000, 2),
            (0x0000000000000001, 3),
            (0x800fffffffffffff, 3),
            (0x3730000000000000, 4),
            (0x0010000000000000, 4),
            (0xffefffffffffffff, 4),
        ],
    },
    Group {
        functions: &["classify"],
        width: 32,
        rows: &[
            (0x7f800001, 0),
            (0xffffffff, 0),
            (0x7fc00000, 0),
            (0x7f800000, 1),
            (0xff800000, 1),
            (0x00000000, 2),
            (0x80000000, 2),
            (0x00000001, 3),
            (0x807fffff, 3),
            (0x00000200, 3),
            (0x00800000, 4),
            (0xff7fffff, 4),
        ],
    },
    // Document 01: fabs clears the sign bit and negate flips it, NaN included; nothing else
    // changes.
    Group {
        functions: &["fabs"],
        width: 64,
        rows: &[
            (0x8000000000000000, 0x0000000000000000),
            (0x3ff0000000000000, 0x3ff0000000000000),
            (0xfff0000000000000, 0x7ff0000000000000),
            (0xfff0000000000001, 0x7ff0000000000001),
        ],
    },
    Group {
        functions: &["fabs"],
        width: 32,
        rows: &[
            (0x80000000, 0x00000000),
            (0x3f800000, 0x3f800000),
            (0xff800000, 0x7f800000),
            (0xff800001, 0x7f800001),
        ],
    },
    Group {
        functions: &["negate"],
        width: 64,
        rows: &[
            (0x0000000000000000, 0x8000000000000000),
            (0x8000000000000000, 0x0000000000000000),
            (0xbff0000000000000, 0x3ff0000000000000),
            (0x7ff0000000000001, 0xfff0000000000001),
        ],
    },
    Group {
        functions: &["negate"],
        width: 32,
        rows: &[
            (0x00000000, 0x80000000),
            (0x80000000, 0x00000000),
            (0xbf800000, 0x3f800000),
            (0x7f800001, 0xff800001),
        ],
    },
];

/// Width, operand and answer of lround.
const LROUND: &[(u32, u64, Answer)] = &[
    // Document 01's refusal 1: a NaN.
    (64, 0x7ff8000000000000, Answer::refused(1, 0)),
    (64, 0xfff0000000000001, Answer::refused(1, 0)),
    (32, 0x7fc00000, Answer::refused(1, 0)),
    (32, 0xff800001, Answer::refused(1, 0)),
    // Refusal 3: infinite, or round(x) outside -2^63 to 2^63 - 1.
    (64, 0x7ff0000000000000, Answer::refused(3, 0)),
    (64, 0xfff0000000000000, Answer::refused(3, 0)),
    (64, 0x43e0000000000000, Answer::refused(3, 0)), // 2^63
    (64, 0xc3e0000000000001, Answer::refused(3, 0)), // just below -2^63
    (64, 0x43f0000000000000, Answer::refused(3, 0)), // 2^64
    (64, 0xffefffffffffffff, Answer::refused(3, 0)),
    (32, 0x7f800000, Answer::refused(3, 0)),
    (32, 0xff800000, Answer::refused(3, 0)),
    (32, 0x5f000000, Answer::refused(3, 0)),
    (32, 0xdf000001, Answer::refused(3, 0)),
    (32, 0x5f800000, Answer::refused(3, 0)),
    (32, 0xff7fffff, Answer::refused(3, 0)),
    // The numbers next to those refused.
    (64, 0xc3e0000000000000, Answer::whole(-0x8000000000000000)),
    (64, 0x43dfffffffffffff, Answer::whole(0x7ffffffffffffc00)),
    (32, 0xdf000000, Answer::whole(-0x8000000000000000)),
    (32, 0x5effffff, Answer::whole(0x7fffff8000000000)),
    // Zeros, halves and their neighbours.
    (64, 0x0000000000000000, Answer::whole(0)),
    (64, 0x8000000000000000, Answer::whole(0)),
    (64, 0x8000000000000001, Answer::whole(0)),
    (64, 0x3fdfffffffffffff, Answer::whole(0)),
    (64, 0x3fe0000000000000, Answer::whole(1)),
    (64, 0xbfe0000000000000, Answer::whole(-1)),
    (64, 0x4004000000000000, Answer::whole(3)),
    (64, 0xc003ffffffffffff, Answer::whole(-2)),
    (64, 0x432fffffffffffff, Answer::whole(0x10000000000000)),
    (64, 0xc340000000000001, Answer::whole(-0x20000000000002)),
    (32, 0x80000000, Answer::whole(0)),
    (32, 0x3effffff, Answer::whole(0)),
    (32, 0x3f000000, Answer::whole(1)),
    (32, 0xc0200000, Answer::whole(-3)),
    (32, 0x4affffff, Answer::whole(0x800000)),
];

#[test]
fn the_answers_of_the_sources() {
    for group in GROUPS {
        for name in group.functions {
            for &(x, answer) in group.rows {
                check(name, group.width, [x, 0], Answer::word(answer));
            }
        }
    }
}

#[test]
fn lround_and_its_refusals() {
    for &(width, x, answer) in LROUND {
        check("lround", width, [x, 0], answer);
    }
}
