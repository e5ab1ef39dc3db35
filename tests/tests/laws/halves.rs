//! What W-201 says of halves, beside the language's own arithmetic on floats.

use crate::roundings::ROUNDINGS;
use crate::{is_finite, library};
use estrenwind_tests::answer::Answer;
use estrenwind_tests::functions::Library;
use estrenwind_tests::narrowing;
use estrenwind_tests::patterns::Random;
use estrenwind_tests::reference::{Class, BINARY16, BINARY32};

const HALVES: std::ops::Range<u64> = 0..65_536;

fn import() -> Library {
    library("f16_to_f32", &BINARY16)
}

fn export() -> Library {
    library("f32_to_f16", &BINARY32)
}

/// Every half, what is halfway between two, and their neighbours; floats at random and beside
/// halves; and floats at even steps from the first to the last. No NaN is among them.
fn floats() -> Vec<u64> {
    let mut random = Random::new(0x240);
    let mut floats = narrowing::edges(&BINARY32, &BINARY16);
    floats.extend((0..2_000_000).map(|_| random.narrowed(&BINARY32, &BINARY16)));
    floats.extend((0..1 << 32).step_by(1999));
    floats.retain(|&x| BINARY32.classify(x) != Class::Nan);
    floats
}

/// The float of a half is the number that its fields say, in the language's arithmetic.
#[test]
fn import_is_the_number_of_the_fields() {
    for x in HALVES.filter(|&x| is_finite(&BINARY16, x)) {
        let (field, fraction) = (x >> 10 & 31, x & 1023);
        let magnitude = match field {
            0 => fraction as f32 / 16_777_216.0,
            _ => (1024 + fraction) as f32 * 2f32.powi(field as i32 - 25),
        };
        let number = if x >> 15 == 0 { magnitude } else { -magnitude };
        let answer = import()(x, 0);
        assert_eq!(answer, Answer::word(number.to_bits().into()), "{x:x}");
    }
}

#[test]
fn a_half_that_is_no_nan_comes_back() {
    for x in HALVES {
        let back = export()(import()(x, 0).words[0], 0);
        let nan = BINARY16.classify(x) == Class::Nan;
        let expected = if nan { x | 0x200 } else { x };
        assert_eq!(back, Answer::word(expected), "{x:x}");
    }
}

/// For every half, NaNs among them; and what is exported is never refused.
#[test]
fn a_rounding_is_import_rounding_of_floats_and_export() {
    for name in ROUNDINGS {
        let [halves, floats] = [BINARY16, BINARY32].map(|format| library(name, &format));
        for x in HALVES {
            let rounded = floats(import()(x, 0).words[0], 0);
            let expected = export()(rounded.words[0], 0);
            assert_eq!(expected.refusal, 0, "{name} {x:x}");
            assert_eq!(halves(x, 0), expected, "{name} {x:x}");
        }
    }
}

#[test]
fn export_is_monotone() {
    let mut floats = floats();
    floats.sort_unstable_by_key(|&x| BINARY32.rank(x));
    let mut below = BINARY16.rank(0xfc00);
    for x in floats {
        let rank = BINARY16.rank(export()(x, 0).words[0]);
        assert!(below <= rank, "{x:x} is below that of a smaller number");
        below = rank;
    }
    assert_eq!(below, BINARY16.rank(0x7c00));
}

/// A double holds every float and every number halfway between two halves. So its comparison tells
/// on which side of these a float lies.
#[test]
fn export_lies_no_farther_than_halfway() {
    // The number of a half without sign, what would come after the largest included.
    let number = |half: u64| match half {
        0x7c00 => 65_536.0,
        _ => f64::from(f32::from_bits(import()(half, 0).words[0] as u32)),
    };
    for x in floats() {
        let answer = export()(x, 0);
        let (sign, half) = (answer.words[0] >> 15, answer.words[0] & 0x7fff);
        assert_eq!(sign, x >> 31, "{x:x}");
        let exact = f64::from(f32::from_bits(x as u32).abs());
        let refused = is_finite(&BINARY32, x) && exact >= 65_520.0;
        assert_eq!(answer.refusal, if refused { 3 } else { 0 }, "{x:x}");
        assert_eq!(half == 0x7c00, exact >= 65_520.0, "{x:x}: {half:x}");
        let even = half % 2 == 0;
        if half > 0 {
            let low = (number(half - 1) + number(half)) / 2.0;
            assert!(low < exact || low == exact && even, "{x:x}: {half:x}");
        }
        if half < 0x7c00 {
            let high = (number(half) + number(half + 1)) / 2.0;
            assert!(exact < high || exact == high && even, "{x:x}: {half:x}");
        }
    }
}

#[test]
fn a_sign_changes_nothing_else() {
    for x in HALVES {
        let (there, back) = (import()(x, 0), import()(x ^ 0x8000, 0));
        assert_eq!(there.words[0] ^ 0x8000_0000, back.words[0], "{x:x}");
    }
    for x in floats() {
        let (there, back) = (export()(x, 0), export()(BINARY32.negate(x), 0));
        assert_eq!(there.words[0] ^ 0x8000, back.words[0], "{x:x}");
        assert_eq!(there.refusal, back.refusal, "{x:x}");
    }
}

/// The ten top bits of a NaN's fraction stay, the first of them set; the thirteen below are lost on
/// the way out and zero on the way in.
#[test]
fn nans_keep_their_top_bits() {
    for top in 0..1024u64 {
        for sign in [0, 1] {
            if top != 0 {
                let float = import()(sign << 15 | 0x7c00 | top, 0);
                let expected = sign << 31 | 0x7fc0_0000 | top << 13;
                assert_eq!(float, Answer::word(expected), "{sign} {top:x}");
            }
            for low in [0, 1, 0x0fff, 0x1000, 0x1001, 0x1fff] {
                if (top, low) != (0, 0) {
                    let half = export()(sign << 31 | 0x7f80_0000 | top << 13 | low, 0);
                    let expected = sign << 15 | 0x7e00 | top;
                    assert_eq!(half, Answer::word(expected), "{sign} {top:x} {low:x}");
                }
            }
        }
    }
}
