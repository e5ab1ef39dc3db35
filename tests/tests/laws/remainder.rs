//! remainder and remquo: W-204's statements in exact whole numbers, asked of the library's answers.

use crate::{is_finite, library};
use estrenwind_tests::divisions;
use estrenwind_tests::functions::{Library, FORMATS};
use estrenwind_tests::operands::Operands;
use estrenwind_tests::patterns::{edges, Random};
use estrenwind_tests::reference::natural::Natural;
use estrenwind_tests::reference::{Class, Format};

/// Whether there is something to divide: x is finite, and so is y and no zero.
fn divides(format: &Format, x: u64, y: u64) -> bool {
    is_finite(format, x) && is_finite(format, y) && format.classify(y) != Class::Zero
}

/// Pairs that exact whole numbers are worked for: the edges of divisions, and random ones.
fn divisions(format: &Format) -> Vec<[u64; 2]> {
    let mut random = Random::new(0x2040);
    let mut pairs = divisions::edges(format);
    pairs.extend((0..100_000).map(|_| random.division(format)));
    pairs.retain(|&[x, y]| divides(format, x, y));
    pairs
}

/// Pairs for laws that are about bits: every edge, and random ones; no NaN among them.
fn pairs(format: &Format) -> Vec<[u64; 2]> {
    let mut random = Random::new(0x2041);
    let mut pairs = Operands::Division.edges(format);
    pairs.extend((0..500_000).map(|_| random.division(format)));
    pairs.retain(|&[x, y]| format.first_nan(x, y).is_none());
    pairs
}

/// The magnitude of n where w is x - n·y for an integer n; none where there is no such integer.
fn times_taken_away(format: &Format, x: u64, y: u64, w: u64) -> Option<Natural> {
    let (a, r) = (format.magnitude(x), format.magnitude(w));
    let difference = match format.is_negative(x) == format.is_negative(w) {
        true if a >= r => &a - &r,
        true => &r - &a,
        false => &a + &r,
    };
    let (n, rest) = difference.div_rem(&format.magnitude(y));
    rest.is_zero().then_some(n)
}

/// Whether W-204 says of w that it is the remainder of x by y.
fn is_remainder(format: &Format, x: u64, y: u64, w: u64) -> bool {
    if !is_finite(format, w) {
        return false;
    }
    let Some(n) = times_taken_away(format, x, y, w) else {
        return false;
    };
    let (twice, b) = (&format.magnitude(w) * 2, format.magnitude(y));
    let is_nearest = twice < b || twice == b && !n.is_odd();
    let is_zero = format.classify(w) == Class::Zero;
    is_nearest && (!is_zero || format.is_negative(w) == format.is_negative(x))
}

/// "n nearest to x/y, halves to even, exact, a zero result with x's sign"; and no other pattern is so:
/// none of the patterns beside it, not the same with the other sign, and not fmod's answer or x, which
/// differ from x by a multiple of y too.
#[test]
fn what_is_left_is_the_remainder_and_nothing_else_is() {
    for format in FORMATS {
        let [remainder, fmod] = ["remainder", "fmod"].map(|name| library(name, &format));
        for [x, y] in divisions(&format) {
            let answer = remainder(x, y);
            let word = answer.words[0];
            let case = || format!("{x:x} {y:x}: {word:x}");
            assert_eq!(answer.refusal, 0, "{}", case());
            assert!(is_remainder(&format, x, y, word), "{}", case());
            let beside = [word.wrapping_add(1), word.wrapping_sub(1)];
            let beside = beside.map(|word| word & (format.sign_bit() | (format.sign_bit() - 1)));
            let others = [format.negate(word), fmod(x, y).words[0], x];
            for other in beside.into_iter().chain(others) {
                let same = other == word;
                assert_eq!(is_remainder(&format, x, y, other), same, "{}", case());
            }
        }
    }
}

/// At most half of y, and not above x: as whole numbers.
#[test]
fn remainder_is_at_most_half_of_y_and_not_above_x() {
    for format in FORMATS {
        let remainder = library("remainder", &format);
        let mut halves = [0, 0];
        for [x, y] in divisions(&format) {
            let word = remainder(x, y).words[0];
            let [a, b, r] = [x, y, word].map(|x| format.magnitude(x));
            assert!(r <= a, "{x:x} {y:x}: {word:x}");
            assert!(&r * 2 <= b, "{x:x} {y:x}: {word:x}");
            if &r * 2 == b {
                let n = times_taken_away(&format, x, y, word).expect("an integer");
                assert!(!n.is_odd(), "{x:x} {y:x}: {word:x}");
                // The even one is the nearer to zero, or the farther.
                let turned = format.is_negative(word) != format.is_negative(x);
                halves[turned as usize] += 1;
            }
        }
        assert!(halves.iter().all(|&count| count > 1_000), "{halves:?}");
    }
}

/// "The sign of x/y on the magnitude of n modulo 8."
#[test]
fn remquo_s_quotient_is_n_modulo_8_with_the_sign_of_x_by_y() {
    for format in FORMATS {
        let remquo = library("remquo", &format);
        for [x, y] in divisions(&format) {
            let [word, quotient] = remquo(x, y).words;
            let n = times_taken_away(&format, x, y, word).expect("an integer");
            let (_, digits) = n.div_rem_power_of_two(3);
            let digits = digits.to_u64().expect("below 8") as i64;
            let opposite = format.is_negative(x) != format.is_negative(y);
            let expected = if opposite { -digits } else { digits };
            assert_eq!(quotient as i64, expected, "{x:x} {y:x}: {word:x}");
        }
    }
}

/// Both differ from x by a multiple of y, so they differ from each other by one: by y or by nothing.
#[test]
fn remainder_and_fmod_differ_by_y_or_by_nothing() {
    for format in FORMATS {
        let [remainder, fmod] = ["remainder", "fmod"].map(|name| library(name, &format));
        let mut times = [0, 0];
        for [x, y] in divisions(&format) {
            let [nearest, towards_zero] = [remainder, fmod].map(|f| f(x, y).words[0]);
            let n = times_taken_away(&format, towards_zero, y, nearest);
            let n = n.and_then(|n| n.to_u64()).filter(|&n| n < 2);
            match n {
                Some(n) => times[n as usize] += 1,
                None => panic!("{x:x} {y:x}: {nearest:x} and {towards_zero:x}"),
            }
            assert_eq!(n == Some(0), nearest == towards_zero, "{x:x} {y:x}");
        }
        assert!(times.iter().all(|&count| count > 10_000), "{times:?}");
    }
}

fn both(format: &Format) -> [Library; 2] {
    ["remainder", "remquo"].map(|name| library(name, format))
}

/// Bit for bit, a zero's sign included: -x leaves the negation and the negated quotient, -y the same
/// and the negated quotient. What is refused for one is for all.
#[test]
fn remainder_is_odd_in_x_and_even_in_y() {
    for format in FORMATS {
        let [remainder, remquo] = both(&format);
        for [x, y] in pairs(&format) {
            let answer = remquo(x, y);
            let [word, quotient] = answer.words;
            let case = || format!("{x:x} {y:x}");
            let of_negated = [
                remquo(format.negate(x), y),
                remquo(x, format.negate(y)),
                remquo(format.negate(x), format.negate(y)),
            ];
            let negated = format.negate(word);
            let opposite = quotient.wrapping_neg();
            let expected = match answer.refusal {
                0 => [[negated, opposite], [word, opposite], [negated, quotient]],
                _ => [answer.words; 3],
            };
            assert_eq!(
                of_negated.map(|answer| answer.words),
                expected,
                "{}",
                case()
            );
            assert_eq!(
                of_negated.map(|a| a.refusal),
                [answer.refusal; 3],
                "{}",
                case()
            );
            assert_eq!(remainder(x, y).words, [word, 0], "{}", case());
            assert_eq!(remainder(x, y).refusal, answer.refusal, "{}", case());
        }
    }
}

/// What is left leaves itself, and its nearest multiple is none.
#[test]
fn the_remainder_of_a_remainder_is_itself() {
    for format in FORMATS {
        let [remainder, remquo] = both(&format);
        for [x, y] in pairs(&format) {
            let answer = remainder(x, y);
            if answer.refusal == 0 {
                let word = answer.words[0];
                assert_eq!(remquo(word, y).words, [word, 0], "{x:x} {y:x}");
            }
        }
    }
}

/// The laws above would say nothing of the operands that have no division.
#[test]
fn remainder_refuses_where_fmod_does() {
    for format in FORMATS {
        let fmod = library("fmod", &format);
        let mut refused = 0;
        for [x, y] in pairs(&format) {
            let expected = fmod(x, y).refusal;
            refused += (expected != 0) as u64;
            for function in both(&format) {
                let answer = function(x, y);
                assert_eq!(answer.refusal, expected, "{x:x} {y:x}");
                if expected != 0 {
                    assert_eq!(answer.words, [format.default_nan(), 0], "{x:x} {y:x}");
                }
            }
        }
        assert!(refused > 3_000, "{refused}");
    }
}

/// "0 for infinite y": x itself, and no multiple.
#[test]
fn by_an_infinity_x_is_left() {
    for format in FORMATS {
        let [remainder, remquo] = both(&format);
        for x in edges(&format) {
            if is_finite(&format, x) {
                for y in [format.infinity(), format.negate(format.infinity())] {
                    assert_eq!(remainder(x, y).words, [x, 0], "{x:x} {y:x}");
                    assert_eq!(remquo(x, y).words, [x, 0], "{x:x} {y:x}");
                    assert_eq!(remquo(x, y).refusal, 0, "{x:x} {y:x}");
                }
            }
        }
    }
}
