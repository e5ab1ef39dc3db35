//! Conversion from one format to another, and that of halves in particular: W-201.

use crate::counting::{Counted, SMALL};
use estrenwind_tests::answer::Answer;
use estrenwind_tests::functions::Function;
use estrenwind_tests::narrowing;
use estrenwind_tests::reference::conversion::converted;
use estrenwind_tests::reference::natural::Natural;
use estrenwind_tests::reference::{Class, Format, BINARY16, BINARY32};

/// The count of the pattern of `to` nearest to a finite x of `from`: ones of both formats are brought
/// to the same size.
fn nearest(from: &Counted, to: &Counted, x: u64) -> usize {
    let exact = from.units(from.index(x)) * to.one as u128;
    to.nearest(exact, |units| units * from.one as u128)
}

#[test]
fn a_number_becomes_the_nearest_pattern_or_is_refused() {
    for from in SMALL {
        for to in SMALL {
            let [counted, target] = [from, to].map(|format| Counted::new(&format));
            for x in counted.patterns().filter(|&x| counted.is_number(x)) {
                let infinite = counted.index(x) == counted.infinity();
                let index = if infinite {
                    target.infinity()
                } else {
                    nearest(&counted, &target, x)
                };
                let refused = !infinite && index == target.infinity();
                let word = target.signed(index, counted.is_negative(x));
                let expected = Answer::refused(if refused { 3 } else { 0 }, word);
                assert_eq!(converted(&from, &to, x), expected, "{from:?} {to:?} {x:x}");
            }
        }
    }
}

/// A format's fraction as binary digits, its first one at the left.
fn fraction_digits(format: &Format, x: u64) -> String {
    let digits = format.fraction_bits as usize;
    format!("{:0digits$b}", format.fraction(x))
}

/// W-201's words on the digits: the top ones stay where they are, further ones are zero, and the
/// first is 1.
#[test]
fn a_nan_keeps_sign_and_top_payload_bits() {
    let wide = [BINARY32, Format::new(12, 6)];
    for from in SMALL.into_iter().chain(wide) {
        for to in SMALL.into_iter().chain(wide) {
            let step = (1 << from.fraction_bits) / 4096;
            for fraction in (0..1 << from.fraction_bits).step_by(step.max(1)) {
                for fraction in [fraction, fraction | 1] {
                    for sign in [0, from.sign_bit()] {
                        let x = sign | from.infinity() | fraction;
                        if from.classify(x) == Class::Nan {
                            check_nan(&from, &to, x);
                        }
                    }
                }
            }
        }
    }
}

fn check_nan(from: &Format, to: &Format, x: u64) {
    let answer = converted(from, to, x);
    let word = answer.words[0];
    assert_eq!(answer, Answer::word(word), "{from:?} {to:?} {x:x}");
    assert_eq!(to.classify(word), Class::Nan, "{from:?} {to:?} {x:x}");
    let negative = from.is_negative(x);
    assert_eq!(to.is_negative(word), negative, "{from:?} {to:?} {x:x}");
    let digits = fraction_digits(from, x);
    let mut kept: String = digits.chars().take(to.fraction_bits as usize).collect();
    while kept.len() < to.fraction_bits as usize {
        kept.push('0');
    }
    kept.replace_range(0..1, "1");
    assert_eq!(fraction_digits(to, word), kept, "{from:?} {to:?} {x:x}");
}

/// A half as the number of units of 2^-149 that its float must count.
fn as_float(x: u64) -> Natural {
    &BINARY16.magnitude(x) << (149 - 24)
}

#[test]
fn import_is_exact_and_never_refuses() {
    for x in 0..65_536 {
        let answer = converted(&BINARY16, &BINARY32, x);
        let word = answer.words[0];
        assert_eq!(answer, Answer::word(word), "{x:x}");
        assert_eq!(word >> 32, 0, "{x:x}");
        let negative = BINARY16.is_negative(x);
        assert_eq!(BINARY32.is_negative(word), negative, "{x:x}");
        match BINARY16.classify(x) {
            Class::Zero | Class::Subnormal | Class::Normal => {
                assert_eq!(BINARY32.magnitude(word), as_float(x), "{x:x}");
            }
            class => assert_eq!(BINARY32.classify(word), class, "{x:x}"),
        }
    }
}

/// Entry k of W-201's table is the float of k·2^-24.
#[test]
fn import_of_the_first_1024_halves_is_the_table() {
    for k in 0..1024 {
        let word = converted(&BINARY16, &BINARY32, k).words[0];
        assert_eq!(BINARY32.magnitude(word), &Natural::from(k) << 125, "{k}");
        assert_eq!(f32::from_bits(word as u32), k as f32 / 16_777_216.0, "{k}");
    }
}

#[test]
fn a_half_that_is_no_nan_comes_back() {
    for x in 0..65_536 {
        let float = converted(&BINARY16, &BINARY32, x).words[0];
        let back = converted(&BINARY32, &BINARY16, float);
        let nan = BINARY16.classify(x) == Class::Nan;
        let expected = if nan { BINARY16.quieted(x) } else { x };
        assert_eq!(back, Answer::word(expected), "{x:x}");
    }
}

/// By what has to hold of a result: no half is nearer, and of two equally near it is the even one.
#[test]
fn export_is_the_nearest_half() {
    let mut refused = 0;
    for x in narrowing::edges(&BINARY32, &BINARY16) {
        if matches!(BINARY32.classify(x), Class::Nan | Class::Infinite) {
            continue;
        }
        let answer = converted(&BINARY32, &BINARY16, x);
        let word = answer.words[0];
        let negative = BINARY32.is_negative(x);
        assert_eq!(BINARY16.is_negative(word), negative, "{x:x}");
        // 65,520 is 2^16 - 2^4.
        let exact = BINARY32.magnitude(x);
        let most = &Natural::power_of_two(149 + 16) - &Natural::power_of_two(149 + 4);
        if exact >= most {
            let infinity = BINARY16.infinity() | (word & BINARY16.sign_bit());
            assert_eq!(answer, Answer::refused(3, infinity), "{x:x}");
            refused += 1;
            continue;
        }
        assert_eq!(answer.refusal, 0, "{x:x}");
        let distance = |half: u64| {
            let half = as_float(half);
            if half > exact {
                &half - &exact
            } else {
                &exact - &half
            }
        };
        let index = BINARY16.fabs(word);
        let chosen = distance(index);
        for other in [index.checked_sub(1), Some(index + 1)] {
            if let Some(other) = other.filter(|&other| other < BINARY16.infinity()) {
                let against = distance(other).cmp(&chosen);
                let holds = against.is_gt() || against.is_eq() && index % 2 == 0;
                assert!(holds, "{x:x}: {other:x} is not farther than {index:x}");
            }
        }
    }
    assert!(refused > 500, "{refused} only");
}

/// W-201 defines a rounding of halves so; the reference has it over the width instead.
#[test]
fn a_rounding_of_halves_is_import_rounding_and_export() {
    for name in ["floor", "ceil", "trunc", "round", "nearbyint"] {
        let rounding = Function::named(name).unwrap().reference;
        for x in 0..65_536 {
            let float = converted(&BINARY16, &BINARY32, x).words[0];
            let rounded = rounding(&BINARY32, float, 0).words[0];
            let expected = converted(&BINARY32, &BINARY16, rounded);
            assert_eq!(expected.refusal, 0, "{name} {x:x}");
            assert_eq!(rounding(&BINARY16, x, 0), expected, "{name} {x:x}");
        }
    }
}
