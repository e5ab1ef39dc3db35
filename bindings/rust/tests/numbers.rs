//! Each function at each width, by cases of document 01 and of its special values.

use estrenwind::*;

/// The same bits: -0 is not 0.
#[track_caller]
fn same(left: f64, right: f64) {
    assert_eq!(left.to_bits(), right.to_bits(), "{left} {right}");
}

#[track_caller]
fn same32(left: f32, right: f32) {
    assert_eq!(left.to_bits(), right.to_bits(), "{left} {right}");
}

#[test]
fn marked_cases() {
    same(floor(-0.5), -1.0);
    same(ceil(-0.5), -0.0);
    same(round(0.5), 1.0);
    same(round(f64::from_bits(0x3fdfffffffffffff)), 0.0);
    same(nearbyint(2.5), 2.0);
    same(round(-2.5), -3.0);
    same(trunc(-0.0), -0.0);
    same(
        floor(f64::from_bits(0x4330000000000001)),
        f64::from_bits(0x4330000000000001),
    );
    assert_eq!(lround(f64::from_bits(0xc3e0000000000000)), Ok(i64::MIN));
    let refused = lround(f64::from_bits(0x43e0000000000000)).unwrap_err();
    assert_eq!((refused.reason, refused.value), (Reason::OutOfRange, 0));
    assert_eq!(
        modf(-3.25),
        Parts {
            whole: -3.0,
            fraction: -0.25
        }
    );
    assert_eq!(
        frexp(f64::from_bits(1)),
        Scaled {
            fraction: 0.5,
            exponent: -1073
        }
    );
    same(ldexp(1.0, -1075).unwrap(), 0.0);
    assert_eq!(
        ldexp(1.0, 1024).unwrap_err(),
        Refused {
            reason: Reason::OutOfRange,
            value: f64::INFINITY
        }
    );
    same(fmod(-7.5, 2.0).unwrap(), -1.5);
    same(
        nextafter(0.0, -1.0).unwrap(),
        f64::from_bits(0x8000000000000001),
    );
}

#[test]
fn single_width() {
    same32(floor(-0.5), -1.0);
    same32(ceil(-0.5), -0.0);
    same32(round(0.5), 1.0);
    same32(round(f32::from_bits(0x3effffff)), 0.0);
    same32(nearbyint(2.5), 2.0);
    same32(trunc(-2.75), -2.0);
    assert_eq!(lround(-2.5f32), Ok(-3));
    assert_eq!(
        modf(-3.25f32),
        Parts {
            whole: -3.0,
            fraction: -0.25
        }
    );
    assert_eq!(
        frexp(f32::from_bits(1)),
        Scaled {
            fraction: 0.5,
            exponent: -148
        }
    );
    same32(ldexp(1.0, -149).unwrap(), f32::from_bits(1));
    assert_eq!(ldexp(-1.0, 128).unwrap_err().value, f32::NEG_INFINITY);
    same32(fmod(-7.5, 2.0).unwrap(), -1.5);
    same32(remainder(-7.5, 2.0).unwrap(), 0.5);
    same32(nextafter(0.0, -1.0).unwrap(), f32::from_bits(0x80000001));
    same32(fmin(2.0, f32::NAN), 2.0);
    same32(fmin(-0.0, 0.0), -0.0);
    same32(fmin(0.0, -0.0), -0.0);
    same32(fmax(-0.0, 0.0), 0.0);
    same32(fmax(0.0, -0.0), 0.0);
    same32(fabs(-1.5), 1.5);
    same32(negate(1.5), -1.5);
    assert_eq!(classify(f32::MIN_POSITIVE / 2.0), Class::Subnormal);
}

#[test]
fn halves() {
    for (half, float) in [
        (0x0000, 0.0),
        (0x8000, -0.0),
        (0x0001, 2f32.powi(-24)),
        (0x83ff, -1023.0 * 2f32.powi(-24)),
        (0x0400, 2f32.powi(-14)),
        (0xc100, -2.5),
        (0x7bff, 65504.0),
        (0xfc00, f32::NEG_INFINITY),
    ] {
        same32(half::to_f32(half), float);
        assert_eq!(half::from_f32(float), Ok(half));
    }
    for (float, half) in [
        (2f32.powi(-25), 0x0000),
        (-2f32.powi(-25), 0x8000),
        (2f32.powi(-25).next_up(), 0x0001),
        (1.0 + 2f32.powi(-11), 0x3c00),
        (1.0 + 3.0 * 2f32.powi(-11), 0x3c02),
        (65520f32.next_down(), 0x7bff),
    ] {
        assert_eq!(half::from_f32(float), Ok(half), "{float}");
    }
    for (float, infinity) in [(65520.0, 0x7c00), (f32::MIN, 0xfc00)] {
        let refused = half::from_f32(float).unwrap_err();
        assert_eq!(refused.reason, Reason::OutOfRange);
        assert_eq!(refused.value, infinity);
    }
    let [one_half, less] = [0x3800, 0x37ff];
    assert_eq!(half::floor(one_half | 0x8000), 0xbc00);
    assert_eq!(half::ceil(one_half | 0x8000), 0x8000);
    assert_eq!(half::trunc(0xc2c0), 0xc200); // of -3.375: -3
    assert_eq!(half::round(one_half), 0x3c00);
    assert_eq!(half::round(less), 0x0000);
    assert_eq!(half::nearbyint(0x4100), 0x4000); // of 2.5: 2
}

/// What the module's page says of its roundings, for every half.
#[test]
fn roundings_of_halves_are_those_of_floats() {
    type Roundings = [(fn(u16) -> u16, fn(u32) -> u32); 5];
    let roundings: Roundings = [
        (half::floor, |x| c::ew_floor_f32(x)),
        (half::ceil, |x| c::ew_ceil_f32(x)),
        (half::trunc, |x| c::ew_trunc_f32(x)),
        (half::round, |x| c::ew_round_f32(x)),
        (half::nearbyint, |x| c::ew_nearbyint_f32(x)),
    ];
    for x in 0..=u16::MAX {
        for (of_halves, of_floats) in roundings {
            let half = c::ew_f32_to_f16(of_floats(c::ew_f16_to_f32(x)));
            assert_eq!((of_halves(x), 0), (half.word, half.refusal), "{x:x}");
        }
    }
}

/// x, y, what is left, and the quotient: n nearest to x / y with halves to even, a zero with the sign of x, and the sign of x / y on the
/// magnitude of n modulo 8.
const NEAREST: [(f64, f64, f64, i32); 22] = [
    (350.0, 360.0, -10.0, 1),
    (-370.0, 360.0, -10.0, -1),
    (1.0, 3.0, 1.0, 0),
    // Halves: n is 0, 2, 2 and 4, and the same below zero.
    (1.0, 2.0, 1.0, 0),
    (3.0, 2.0, -1.0, 2),
    (5.0, 2.0, 1.0, 2),
    (7.0, 2.0, -1.0, 4),
    (-1.0, 2.0, -1.0, 0),
    (-3.0, 2.0, 1.0, -2),
    (3.0, -2.0, -1.0, -2),
    (-3.0, -2.0, 1.0, 2),
    // A zero has the sign of x.
    (0.0, -2.0, 0.0, 0),
    (-0.0, 2.0, -0.0, 0),
    (-4.0, 2.0, -0.0, -2),
    (4.0, -2.0, 0.0, -2),
    // n is 8, -9, 8 by rounding up from 7, -15 and 16.
    (8.0, 1.0, 0.0, 0),
    (-9.0, 1.0, -0.0, -1),
    (7.75, 1.0, -0.25, 0),
    (15.0, -1.0, 0.0, -7),
    (15.5, 1.0, -0.5, 0),
    // An infinite divisor leaves x.
    (-5.5, f64::INFINITY, -5.5, 0),
    (0.0, f64::NEG_INFINITY, 0.0, 0),
];

#[test]
fn nearest_remainders() {
    for (x, y, rest, quotient) in NEAREST {
        same(remainder(x, y).unwrap(), rest);
        let divided = remquo(x, y).unwrap();
        same(divided.remainder, rest);
        assert_eq!(divided.quotient, quotient, "{x} {y}");
        let [x, y, rest] = [x, y, rest].map(|number| number as f32);
        same32(remainder(x, y).unwrap(), rest);
        let divided = remquo(x, y).unwrap();
        same32(divided.remainder, rest);
        assert_eq!(divided.quotient, quotient, "{x} {y}");
    }
    // Far apart: 2^1023 is 3n - 1, and n is 3 modulo 8.
    let divided = remquo(2f64.powi(1023), 3.0).unwrap();
    assert_eq!((divided.remainder, divided.quotient), (-1.0, 3));
    // Subnormal divisors, one of each width.
    assert_eq!(remainder(7e-323, 2e-323), Ok(-1e-323));
    assert_eq!(
        remainder(f32::from_bits(14), f32::from_bits(4)),
        Ok(f32::from_bits(0x80000002))
    );
}

#[test]
fn classes() {
    for (x, class) in [
        (f64::NAN, Class::Nan),
        (f64::NEG_INFINITY, Class::Infinite),
        (-0.0, Class::Zero),
        (5e-324, Class::Subnormal),
        (f64::MIN_POSITIVE, Class::Normal),
        (f64::MAX, Class::Normal),
    ] {
        assert_eq!(classify(x), class);
    }
}

#[test]
fn refusals() {
    assert_eq!(lround(f64::NAN).unwrap_err().reason, Reason::NotANumber);
    assert_eq!(
        lround(f32::INFINITY).unwrap_err().reason,
        Reason::OutOfRange
    );
    for (x, y) in [(f64::INFINITY, 2.0), (1.0, 0.0), (1.0, -0.0)] {
        let refused = fmod(x, y).unwrap_err();
        assert_eq!(refused.reason, Reason::NoRemainder);
        same(refused.value, f64::from_bits(0x7ff8000000000000));
    }
    same(fmod(f64::NAN, 0.0).unwrap(), f64::NAN);
    same(fmod(1.0, f64::INFINITY).unwrap(), 1.0);
    for (x, y) in [(f64::NEG_INFINITY, 2.0), (1.0, 0.0), (0.0, -0.0)] {
        let refused = remainder(x, y).unwrap_err();
        assert_eq!(refused.reason, Reason::NoRemainder);
        same(refused.value, f64::from_bits(0x7ff8000000000000));
        let refused = remquo(x, y).unwrap_err();
        assert_eq!(refused.reason, Reason::NoRemainder);
        same(refused.value.remainder, f64::from_bits(0x7ff8000000000000));
        assert_eq!(refused.value.quotient, 0);
        let refused = remquo(x as f32, y as f32).unwrap_err();
        assert_eq!(refused.reason, Reason::NoRemainder);
        same32(refused.value.remainder, f32::from_bits(0x7fc00000));
        assert_eq!(refused.value.quotient, 0);
    }
    same(remainder(f64::INFINITY, f64::NAN).unwrap(), f64::NAN);
    assert_eq!(remquo(f32::NAN, 0.0).unwrap().quotient, 0);
    assert_eq!(
        nextafter(f64::MIN, f64::NEG_INFINITY).unwrap_err().value,
        f64::NEG_INFINITY
    );
    assert_eq!(
        lround(1e300).unwrap_err().to_string(),
        "the result is infinite or does not fit"
    );
}

/// Every number is kept, whether this version has a name for it or not.
#[test]
fn reasons() {
    for number in (0..1000).chain([u64::MAX]) {
        let reason = Reason::from(number);
        assert_eq!(reason.number(), number);
        assert_eq!(
            matches!(reason, Reason::Other(_)),
            !(1..=3).contains(&number)
        );
    }
    let refused = Refused {
        reason: Reason::from(9),
        value: 0.5,
    };
    assert_eq!(refused.reason, Reason::Other(9));
    assert_eq!(refused.to_string(), "refusal 9");
}

/// A NaN's sign and payload pass through the functions on patterns.
#[test]
fn patterns() {
    assert_eq!(c::ew_floor_f64(0xfff0000000000001), 0xfff8000000000001);
    assert_eq!(c::ew_fabs_f64(0xfff0000000000001), 0x7ff0000000000001);
    assert_eq!(c::ew_negate_f32(0x7f800001), 0xff800001);
    // Of two NaNs the first, quieted.
    let [first, second] = [0xfff0000000000001, 0x7ff0000000000002];
    let quieted = 0xfff8000000000001;
    let word = c::ew_remainder_f64(first, second);
    assert_eq!((word.word, word.refusal), (quieted, 0));
    let divided = c::ew_remquo_f64(first, second);
    assert_eq!(
        (divided.word, divided.quotient, divided.refusal),
        (quieted, 0, 0)
    );
    let divided = c::ew_remquo_f32(0x3f800000, 0x7f800002);
    assert_eq!(
        (divided.word, divided.quotient, divided.refusal),
        (0x7fc00002, 0, 0)
    );
    assert_eq!(c::ew_round_f16(0xfc01), 0xfe01);
    assert_eq!(c::ew_f16_to_f32(0x7c01), 0x7fc02000);
    let half = c::ew_f32_to_f16(0xff803fff);
    assert_eq!((half.word, half.refusal), (0xfe01, 0));
}
