//! ldexp, beside the language's multiplication.

use crate::language::language;
use crate::{cases, is_finite, library};
use estrenwind_tests::answer::Answer;
use estrenwind_tests::functions::FORMATS;
use estrenwind_tests::reference::Class;

/// The machine rounds a product once, halves to even, so one multiplication by a power of two that
/// the format has gives ldexp. The infinity that it gives for a finite x is refused.
#[test]
fn ldexp_is_a_multiplication_where_the_power_is_a_number() {
    for format in FORMATS {
        let (ldexp, product) = (library("ldexp", &format), language(&format).product);
        let bias = format.bias() as i64;
        let mut met = 0;
        for [x, n] in cases("ldexp", &format) {
            let n = n as i64;
            if (1 - bias..=bias).contains(&n) {
                let power = ((bias + n) as u64) << format.fraction_bits;
                let word = product(x, power);
                let infinite = format.classify(word) == Class::Infinite;
                let refused = infinite && is_finite(&format, x);
                let expected = Answer::refused(if refused { 3 } else { 0 }, word);
                assert_eq!(ldexp(x, n as u64), expected, "{x:x} by {n}");
                met += 1;
            }
        }
        assert!(met > 200_000, "{met} cases only");
    }
}

/// Far powers, which no number of the format is: scaled up in two steps, which loses nothing.
#[test]
fn ldexp_up_is_the_same_in_two_steps() {
    for format in FORMATS {
        let ldexp = library("ldexp", &format);
        for [x, n] in cases("ldexp", &format) {
            let n = n as i64;
            if n >= 0 {
                let first = ldexp(x, (n / 2) as u64);
                let second = ldexp(first.words[0], (n - n / 2) as u64);
                let refusal = first.refusal.max(second.refusal);
                let expected = Answer::refused(refusal, second.words[0]);
                assert_eq!(ldexp(x, n as u64), expected, "{x:x} by {n}");
            }
        }
    }
}

#[test]
fn ldexp_keeps_the_sign_and_grows_with_the_power() {
    for format in FORMATS {
        let ldexp = library("ldexp", &format);
        for [x, n] in cases("ldexp", &format) {
            let n = n as i64;
            let answer = ldexp(x, n as u64);
            let negated = ldexp(format.negate(x), n as u64);
            assert_eq!(negated.refusal, answer.refusal, "{x:x} by {n}");
            assert_eq!(
                negated.words[0],
                format.negate(answer.words[0]),
                "{x:x} by {n}"
            );
            assert_eq!(
                format.is_negative(answer.words[0]),
                format.is_negative(x),
                "{x:x} by {n}"
            );
            let more = ldexp(x, n.saturating_add(1) as u64);
            let [less, more] = [answer, more].map(|answer| format.fabs(answer.words[0]));
            assert!(less <= more, "{x:x} by {n} and one more");
        }
    }
}
