//! Sums, differences and products.

use crate::counting::{Counted, PAIRED, WIDE};
use estrenwind_tests::answer::Answer;
use estrenwind_tests::arithmetic::edges;
use estrenwind_tests::patterns::Random;
use estrenwind_tests::reference::{arithmetic, short, Class, Format, BINARY32, BINARY64};

type Operation = fn(&Format, u64, u64) -> Answer;

/// The authority's and the short form's.
const SUM: [Operation; 2] = [arithmetic::sum, short::arithmetic::sum];
const DIFFERENCE: [Operation; 2] = [arithmetic::difference, short::arithmetic::difference];
const PRODUCT: [Operation; 2] = [arithmetic::product, short::arithmetic::product];

/// The pattern without a sign that is nearest to a magnitude, looked for among all of them: none other
/// is nearer, and where another is as near, this one is even. Infinity is the number that would come
/// after the largest. `one` is what the magnitude counts of a unit.
fn nearest_of_all(counted: &Counted, magnitude: u128, one: u128) -> usize {
    let distance = |index: usize| (counted.units(index) * one).abs_diff(magnitude);
    let all = 0..=counted.infinity();
    let least = all.clone().map(distance).min();
    let nearest: Vec<usize> = all
        .filter(|&index| Some(distance(index)) == least)
        .collect();
    match nearest[..] {
        [index] => index,
        [index, _] if index % 2 == 0 => index,
        [_, index] if index % 2 == 0 => index,
        _ => panic!("{magnitude}: {nearest:?}"),
    }
}

/// What a number is as an answer, with the sign of a zero that is exact.
fn expected(counted: &Counted, exact: i128, one: u128, zero_is_negative: bool) -> Answer {
    let index = nearest_of_all(counted, exact.unsigned_abs(), one);
    let negative = exact < 0 || exact == 0 && zero_is_negative;
    let refusal = if index == counted.infinity() { 3 } else { 0 };
    Answer::refused(refusal, counted.signed(index, negative))
}

/// "Each is the language's own operation, rounded once to nearest, halves to even." Every pair of every
/// small format: none of all patterns is nearer than the answer.
#[test]
fn no_pattern_is_nearer() {
    for format in &PAIRED[..3] {
        let counted = Counted::new(format);
        let mut overflows = 0;
        for x in counted.patterns() {
            for y in counted.patterns() {
                let is_finite = |x| counted.index(x) < counted.infinity();
                let answers = if is_finite(x) && is_finite(y) {
                    let (a, b) = (counted.value(x), counted.value(y));
                    let [of_x, of_y] = [x, y].map(|x| counted.is_negative(x));
                    [
                        // A zero is -0 only where both are, or -0 and +0 taken away.
                        expected(&counted, a + b, 1, of_x && of_y),
                        expected(&counted, a - b, 1, of_x && !of_y),
                        expected(&counted, a * b, counted.one as u128, of_x != of_y),
                    ]
                } else {
                    [Answer::refused(2, format.default_nan()); 3]
                };
                overflows += answers.iter().filter(|answer| answer.refusal == 3).count();
                for (operations, expected) in [SUM, DIFFERENCE, PRODUCT].into_iter().zip(answers) {
                    for operation in operations {
                        let answer = operation(format, x, y);
                        assert_eq!(answer, expected, "{format:?} {x:x} {y:x}");
                    }
                }
            }
        }
        assert!(overflows > 20, "{format:?}: {overflows}");
    }
}

/// A zero of a product that isn't exact has the sign of the operands too.
#[test]
fn signs_of_products_are_those_of_the_operands() {
    for format in PAIRED {
        let counted = Counted::new(&format);
        let finite = |&x: &u64| counted.index(x) < counted.infinity();
        for x in counted.patterns().filter(finite) {
            for y in counted.patterns().filter(finite) {
                let word = arithmetic::product(&format, x, y).words[0];
                let opposite = counted.is_negative(x) != counted.is_negative(y);
                assert_eq!(
                    counted.is_negative(word),
                    opposite,
                    "{format:?} {x:x} {y:x}"
                );
            }
        }
    }
}

/// The nearest pattern found by halving, on a format where looking at all of them takes too long.
#[test]
fn the_nearest_pattern_on_a_larger_format() {
    let format = PAIRED[3];
    let counted = Counted::new(&format);
    let one = counted.one as u128;
    let finite = |&x: &u64| counted.index(x) < counted.infinity();
    for x in counted.patterns().filter(finite) {
        for y in counted.patterns().filter(finite) {
            let (a, b) = (counted.value(x), counted.value(y));
            for (exact, one, [exactly, shortly]) in [
                (a + b, 1, SUM),
                (a - b, 1, DIFFERENCE),
                (a * b, one, PRODUCT),
            ] {
                let index = counted.nearest(exact.unsigned_abs(), |units| units * one);
                let answer = exactly(&format, x, y);
                let case = format!("{format:?} {x:x} {y:x}");
                assert_eq!(counted.index(answer.words[0]), index, "{case}");
                assert_eq!(answer.refusal == 3, index == counted.infinity(), "{case}");
                assert_eq!(shortly(&format, x, y), answer, "{case}");
            }
        }
    }
}

/// The short form on a format of few digits and many exponents, every pair.
#[test]
fn the_short_form_where_exponents_are_far_apart() {
    for x in Counted::new(&WIDE).patterns() {
        for y in Counted::new(&WIDE).patterns() {
            for [exactly, shortly] in [SUM, DIFFERENCE, PRODUCT] {
                let answers = [exactly, shortly].map(|operation| operation(&WIDE, x, y));
                assert_eq!(answers[0], answers[1], "{x:x} {y:x}");
            }
        }
    }
}

type Host = fn(u64, u64) -> u64;

/// The language's own operations on patterns of a width.
fn host(format: &Format) -> [Host; 3] {
    match *format {
        BINARY64 => [
            |x, y| (f64::from_bits(x) + f64::from_bits(y)).to_bits(),
            |x, y| (f64::from_bits(x) - f64::from_bits(y)).to_bits(),
            |x, y| (f64::from_bits(x) * f64::from_bits(y)).to_bits(),
        ],
        BINARY32 => [
            |x, y| (narrow(x) + narrow(y)).to_bits().into(),
            |x, y| (narrow(x) - narrow(y)).to_bits().into(),
            |x, y| (narrow(x) * narrow(y)).to_bits().into(),
        ],
        _ => panic!("the language has no {}-bit numbers", format.width()),
    }
}

fn narrow(x: u64) -> f32 {
    f32::from_bits(x as u32)
}

/// Holds both forms beside the language's own operations on finite operands.
fn check(format: &Format, [x, y]: [u64; 2]) {
    for (host, operations) in host(format).into_iter().zip([SUM, DIFFERENCE, PRODUCT]) {
        let word = host(x, y);
        let refusal = match format.classify(word) {
            Class::Infinite => 3,
            _ => 0,
        };
        for operation in operations {
            let answer = operation(format, x, y);
            assert_eq!(
                answer,
                Answer::refused(refusal, word),
                "{format:?} {x:x} {y:x}"
            );
        }
    }
}

#[test]
fn as_the_language_has_them() {
    for format in [BINARY64, BINARY32] {
        for pair in edges(&format) {
            check(&format, pair);
        }
        let mut random = Random::new(0x2080);
        for _ in 0..400_000 {
            check(&format, random.finite_pair(&format));
        }
    }
}

/// What is no finite number is refused, whichever operand it is.
#[test]
fn what_is_not_finite_is_refused() {
    let [one, infinity] = [1.0, f64::INFINITY].map(f64::to_bits);
    let minus = BINARY64.sign_bit();
    let refused = Answer::refused(2, BINARY64.default_nan());
    for special in [
        infinity,
        infinity | minus,
        BINARY64.default_nan(),
        infinity + 1,
    ] {
        for other in [0, minus, one, 1, infinity - 1, infinity, infinity | minus] {
            for operation in [SUM, DIFFERENCE, PRODUCT].concat() {
                assert_eq!(operation(&BINARY64, special, other), refused);
                assert_eq!(operation(&BINARY64, other, special), refused);
            }
        }
    }
}
