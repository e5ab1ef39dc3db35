//! Halves: conversion to floats and back, and the roundings.

use crate::check;
use estrenwind_tests::answer::Answer;

/// W-201: half, float. Import is exact; a NaN keeps its sign and its payload, quieted, and further
/// bits are zero.
#[rustfmt::skip]
const IMPORT: &[(u64, u64)] = &[
    (0x0000, 0x00000000), // 0
    (0x8000, 0x80000000), // -0
    (0x0001, 0x33800000), // 2^-24
    (0x8001, 0xb3800000),
    (0x0002, 0x34000000), // 2^-23
    (0x0003, 0x34400000), // 3 · 2^-24
    (0x0200, 0x38000000), // 2^-15
    (0x03ff, 0x387fc000), // 1023 · 2^-24
    (0x83ff, 0xb87fc000),
    (0x0400, 0x38800000), // 2^-14
    (0x8400, 0xb8800000),
    (0x0401, 0x38802000), // 1025 · 2^-24
    (0x3555, 0x3eaaa000), // the half nearest to 1/3
    (0x3c00, 0x3f800000), // 1
    (0xc000, 0xc0000000), // -2
    (0x7bff, 0x477fe000), // 65,504
    (0xfbff, 0xc77fe000),
    (0x7c00, 0x7f800000), // infinities
    (0xfc00, 0xff800000),
    (0x7e00, 0x7fc00000), // quiet NaNs
    (0xfe00, 0xffc00000),
    (0x7e01, 0x7fc02000),
    (0xffff, 0xffffe000),
    (0x7c01, 0x7fc02000), // signalling NaNs
    (0xfc01, 0xffc02000),
    (0x7d00, 0x7fe00000),
    (0x7dff, 0x7fffe000),
];

/// W-201: float, half. Rounded once, halves to even; a NaN keeps its sign and its top payload bits,
/// quieted.
#[rustfmt::skip]
const EXPORT: &[(u64, u64)] = &[
    (0x00000000, 0x0000),
    (0x80000000, 0x8000),
    (0x7f800000, 0x7c00), // an infinity is no refusal
    (0xff800000, 0xfc00),
    // The largest half and the last float that becomes it.
    (0x477fe000, 0x7bff), // 65,504
    (0xc77fe000, 0xfbff),
    (0x477fefff, 0x7bff), // 65,519.996
    (0xc77fefff, 0xfbff),
    (0x477fcfff, 0x7bfe), // just below 65,488, halfway to the half before
    (0x477fd000, 0x7bfe), // 65,488
    (0x477fd001, 0x7bff),
    // 2^-24, the smallest half, and 2^-25, halfway to it from 0, which is even.
    (0x33800000, 0x0001),
    (0xb3800000, 0x8001),
    (0x33800001, 0x0001),
    (0x337fffff, 0x0001),
    (0x33000001, 0x0001), // just above 2^-25
    (0xb3000001, 0x8001),
    (0x33000000, 0x0000), // 2^-25
    (0xb3000000, 0x8000),
    (0x32ffffff, 0x0000), // just below it
    (0xb2ffffff, 0x8000),
    (0x32800000, 0x0000), // 2^-26
    (0x00800000, 0x0000), // 2^-126
    (0x007fffff, 0x0000), // subnormal floats
    (0x80000001, 0x8000),
    // Halfway between subnormal halves, from either side to the even one.
    (0x33bfffff, 0x0001),
    (0x33c00000, 0x0002), // 1.5 · 2^-24
    (0x34200000, 0x0002), // 2.5 · 2^-24
    (0x34200001, 0x0003), // rounded once: to 11 digits first, it would become the one before
    (0x387fa000, 0x03fe), // 1022.5 · 2^-24
    (0x387fa001, 0x03ff),
    // 2^-14, the first normal half, and what is halfway to it from the last subnormal one.
    (0x387fdfff, 0x03ff),
    (0x387fe000, 0x0400), // 1023.5 · 2^-24
    (0xb87fe000, 0x8400),
    (0x387fffff, 0x0400),
    (0x38800000, 0x0400), // 2^-14
    (0x38801000, 0x0400), // 1024.5 · 2^-24
    (0x38801001, 0x0401),
    (0x38803000, 0x0402), // 1025.5 · 2^-24
    // About 1 and 2.
    (0x3f800000, 0x3c00),
    (0x3f800fff, 0x3c00),
    (0x3f801000, 0x3c00), // 1 + 2^-11
    (0x3f801001, 0x3c01),
    (0x3f803000, 0x3c02), // 1 + 3 · 2^-11
    (0x3f7fefff, 0x3bff),
    (0x3f7ff000, 0x3c00), // 1 - 2^-12
    (0x3ffff000, 0x4000), // 2 - 2^-11
    (0x3fffffff, 0x4000),
    (0x3eaaaaab, 0x3555), // 1/3
    (0xc0490fdb, 0xc248), // -pi
    // NaNs with their payload in the high bits ..
    (0x7fc00000, 0x7e00),
    (0xffc00000, 0xfe00),
    (0x7fe00000, 0x7f00),
    (0x7fa00000, 0x7f00),
    (0x7f802000, 0x7e01),
    (0xffc02000, 0xfe01),
    (0x7fbfe000, 0x7fff),
    // .. in the low bits, which are lost: still a NaN ..
    (0x7f800001, 0x7e00),
    (0xff801fff, 0xfe00),
    (0x7f801000, 0x7e00),
    (0x7fc01fff, 0x7e00), // and none of them rounds up
    // .. and in both.
    (0x7f803fff, 0x7e01),
    (0xffffffff, 0xffff),
];

/// W-201: a finite float of magnitude 65,520 or more is refused with 3, and the half is the infinity
/// of its sign.
const REFUSED: &[u64] = &[
    0x477ff000, // 65,520
    0x477ff001, //
    0x477fffff, //
    0x47800000, // 65,536
    0x48000000, //
    0x7f7fffff, // the largest
];

/// Half, then floor, ceil, trunc, round and nearbyint of it.
#[rustfmt::skip]
const ROUNDINGS: &[(u64, [u64; 5])] = &[
    // Document 01's marked cases: -0.5, 0.5, just below 0.5, 2.5, -2.5, -0 and 2^10 + 1.
    (0xb800, [0xbc00, 0x8000, 0x8000, 0xbc00, 0x8000]),
    (0x3800, [0x0000, 0x3c00, 0x0000, 0x3c00, 0x0000]),
    (0x37ff, [0x0000, 0x3c00, 0x0000, 0x0000, 0x0000]),
    (0x4100, [0x4000, 0x4200, 0x4000, 0x4200, 0x4000]),
    (0xc100, [0xc200, 0xc000, 0xc000, 0xc200, 0xc000]),
    (0x8000, [0x8000; 5]),
    (0x6401, [0x6401; 5]),
    // Infinities and 0 are unchanged, a NaN is quieted.
    (0x0000, [0x0000; 5]),
    (0x7c00, [0x7c00; 5]),
    (0xfc00, [0xfc00; 5]),
    (0x7c01, [0x7e01; 5]),
    (0xfdff, [0xffff; 5]),
    (0x7e00, [0x7e00; 5]),
    (0xfe55, [0xfe55; 5]),
    // The smallest numbers and the largest subnormal one.
    (0x0001, [0x0000, 0x3c00, 0x0000, 0x0000, 0x0000]),
    (0x8001, [0xbc00, 0x8000, 0x8000, 0x8000, 0x8000]),
    (0x03ff, [0x0000, 0x3c00, 0x0000, 0x0000, 0x0000]),
    (0x83ff, [0xbc00, 0x8000, 0x8000, 0x8000, 0x8000]),
    // 1.5, -1.5, 3.5, and just above 0.5.
    (0x3e00, [0x3c00, 0x4000, 0x3c00, 0x4000, 0x4000]),
    (0xbe00, [0xc000, 0xbc00, 0xbc00, 0xc000, 0xc000]),
    (0x4300, [0x4200, 0x4400, 0x4200, 0x4400, 0x4400]),
    (0x3801, [0x0000, 0x3c00, 0x0000, 0x3c00, 0x3c00]),
    // 1023.5 and 1022.5, the last with a fraction; 65,504.
    (0x63ff, [0x63fe, 0x6400, 0x63fe, 0x6400, 0x6400]),
    (0xe3fd, [0xe3fe, 0xe3fc, 0xe3fc, 0xe3fe, 0xe3fc]),
    (0x7bff, [0x7bff; 5]),
    (0xfbff, [0xfbff; 5]),
];

#[test]
fn import() {
    for &(half, float) in IMPORT {
        check("f16_to_f32", 16, [half, 0], Answer::word(float));
    }
}

#[test]
fn export() {
    for &(float, half) in EXPORT {
        check("f32_to_f16", 32, [float, 0], Answer::word(half));
    }
}

#[test]
fn export_refuses_what_is_too_large() {
    for &float in REFUSED {
        check("f32_to_f16", 32, [float, 0], Answer::refused(3, 0x7c00));
        let negated = float | 0x80000000;
        check("f32_to_f16", 32, [negated, 0], Answer::refused(3, 0xfc00));
    }
}

#[test]
fn roundings_of_halves() {
    let names = ["floor", "ceil", "trunc", "round", "nearbyint"];
    for &(half, answers) in ROUNDINGS {
        for (name, answer) in names.into_iter().zip(answers) {
            check(name, 16, [half, 0], Answer::word(answer));
        }
    }
}
