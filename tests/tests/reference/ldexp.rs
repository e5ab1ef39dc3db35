//! ldexp.

use crate::counting::{Counted, SMALL};
use estrenwind_tests::answer::Answer;
use estrenwind_tests::reference::{ldexp, parts, Class, Format};

/// The count of the pattern nearest to units · 2^n.
fn nearest(counted: &Counted, units: u128, n: i32) -> usize {
    let (up, down) = (n.max(0) as u32, (-n).max(0) as u32);
    counted.nearest(units << up, |units| units << down)
}

fn check(format: &Format, counted: &Counted, x: u64, n: i64, index: usize) {
    let word = counted.signed(index, counted.is_negative(x));
    let refusal = if index == counted.infinity() { 3 } else { 0 };
    let expected = Answer::refused(refusal, word);
    assert_eq!(
        ldexp::ldexp(format, x, n),
        expected,
        "{format:?} {x:x} by {n}"
    );
}

#[test]
fn ldexp_gives_the_nearest_pattern_or_refuses() {
    for format in SMALL {
        let counted = Counted::new(&format);
        let most = format.infinity_log2() as i64 + 4;
        for x in counted.patterns() {
            if matches!(format.classify(x), Class::Subnormal | Class::Normal) {
                let units = counted.value(x).unsigned_abs();
                for n in -most..=most {
                    check(&format, &counted, x, n, nearest(&counted, units, n as i32));
                }
                // Beyond, nothing changes any more.
                for n in (6..63).map(|digit| 1 << digit).chain([i64::MAX]) {
                    check(&format, &counted, x, n, counted.infinity());
                    check(&format, &counted, x, -n, 0);
                    check(&format, &counted, x, -n - 1, 0);
                }
            }
        }
    }
}

#[test]
fn zeros_and_infinities_are_unchanged_and_nans_quieted() {
    for format in SMALL {
        for x in Counted::new(&format).patterns() {
            let expected = match format.classify(x) {
                Class::Nan => format.quieted(x),
                Class::Infinite | Class::Zero => x,
                Class::Subnormal | Class::Normal => continue,
            };
            for n in [0, 1, -1, 100, -100, i64::MAX, i64::MIN] {
                assert_eq!(ldexp::ldexp(&format, x, n), Answer::word(expected));
            }
        }
    }
}

#[test]
fn ldexp_undoes_frexp() {
    for format in SMALL {
        for x in Counted::new(&format).patterns() {
            if !matches!(format.classify(x), Class::Nan | Class::Infinite) {
                let [fraction, exponent] = parts::frexp(&format, x).words;
                let back = ldexp::ldexp(&format, fraction, exponent as i64);
                assert_eq!(back, Answer::word(x), "{format:?} {x:x}");
            }
        }
    }
}
