//! remainder and remquo.

use crate::counting::{Counted, PAIRED};
use estrenwind_tests::answer::Answer;
use estrenwind_tests::reference::{remainder, Class};

/// The integer nearest to a/b, looked for among those about it: none other is nearer, and where
/// another is as near, this one is even.
fn nearest(a: i128, b: i128) -> i128 {
    let distance = |n: i128| (a - n * b).abs();
    let about = a / b - 2..=a / b + 2;
    let least = about.clone().map(distance).min();
    let nearest: Vec<i128> = about.filter(|&n| Some(distance(n)) == least).collect();
    match nearest[..] {
        [n] => n,
        [n, _] if n % 2 == 0 => n,
        [_, n] if n % 2 == 0 => n,
        _ => panic!("{a} by {b}: {nearest:?}"),
    }
}

/// "x - n·y exactly, n nearest to x/y, halves to even; a zero result with x's sign", and "the sign of
/// x/y on the magnitude of n modulo 8".
#[test]
fn remainder_and_remquo_take_the_nearest_multiple_away() {
    for format in PAIRED {
        let counted = Counted::new(&format);
        let infinity = counted.signed(counted.infinity(), false);
        let default_nan = infinity + (1 << (format.fraction_bits - 1));
        for x in counted.patterns() {
            for y in counted.patterns() {
                let expected = match (format.classify(x), format.classify(y)) {
                    (Class::Nan, _) => Answer::word(format.quieted(x)),
                    (_, Class::Nan) => Answer::word(format.quieted(y)),
                    (Class::Infinite, _) | (_, Class::Zero) => Answer::refused(2, default_nan),
                    (_, Class::Infinite) => Answer::word(x),
                    _ => {
                        let (a, b) = (counted.value(x), counted.value(y));
                        let n = nearest(a, b);
                        let word = counted.pattern(a - n * b, counted.is_negative(x));
                        // The language's % keeps the sign of n, which is that of x/y.
                        Answer::pair(word, (n % 8) as u64)
                    }
                };
                let case = || format!("{format:?} {x:x} {y:x}");
                assert_eq!(
                    remainder::remquo(&format, x, y),
                    expected,
                    "remquo {}",
                    case()
                );
                let word = Answer::refused(expected.refusal, expected.words[0]);
                assert_eq!(remainder::remainder(&format, x, y), word, "{}", case());
            }
        }
    }
}

/// No other pattern is so: of all numbers of a format only one differs from x by a multiple of y, is
/// at most half of y, by an even multiple where it is half of it, and has x's sign where it is zero.
/// Every three patterns are tried, so the formats are the smallest.
#[test]
fn no_other_pattern_is_the_remainder() {
    for format in &PAIRED[..3] {
        let counted = Counted::new(format);
        let finite = || {
            counted
                .patterns()
                .filter(|&x| counted.index(x) < counted.infinity())
        };
        for x in finite() {
            for y in finite().filter(|&y| counted.value(y) != 0) {
                let (a, b) = (counted.value(x), counted.value(y));
                let is_so = |&word: &u64| {
                    let rest = counted.value(word);
                    (a - rest) % b == 0
                        && (2 * rest.abs() < b.abs()
                            || 2 * rest.abs() == b.abs() && (a - rest) / b % 2 == 0)
                        && (rest != 0 || counted.is_negative(word) == counted.is_negative(x))
                };
                let so: Vec<u64> = finite().filter(is_so).collect();
                let answer = remainder::remainder(format, x, y);
                assert_eq!(so, [answer.words[0]], "{format:?} {x:x} {y:x}");
            }
        }
    }
}
