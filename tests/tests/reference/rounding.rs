//! The five roundings and lround.

use crate::counting::{Counted, SMALL, WIDE};
use estrenwind_tests::answer::Answer;
use estrenwind_tests::patterns::edges;
use estrenwind_tests::reference::natural::Natural;
use estrenwind_tests::reference::{rounding, Class, Format, BINARY16, BINARY32, BINARY64};

type Rounding = fn(&Format, u64) -> u64;

const ROUNDINGS: [(&str, Rounding); 5] = [
    ("floor", rounding::floor),
    ("ceil", rounding::ceil),
    ("trunc", rounding::trunc),
    ("round", rounding::round),
    ("nearbyint", rounding::nearbyint),
];

/// The integer that document 01's words pick for x, by looking through those around it. All are in
/// units; no integer farther than two from x can be the answer.
fn picked(name: &str, x: i128, one: i128) -> i128 {
    let around = (x / one - 2..=x / one + 2).map(|n| n * one);
    let distance = |n: i128| (n - x).abs();
    let integer = match name {
        "floor" => around.filter(|&n| n <= x).max(),
        "ceil" => around.filter(|&n| n >= x).min(),
        "trunc" => around
            .filter(|n| n.abs() <= x.abs())
            .min_by_key(|&n| distance(n)),
        "round" => around.min_by_key(|&n| (distance(n), -n.abs())),
        "nearbyint" => around.min_by_key(|&n| (distance(n), n / one % 2 != 0)),
        _ => None,
    };
    integer.expect("an integer beside x")
}

#[test]
fn roundings_give_the_integers_that_the_words_pick() {
    for format in SMALL.iter().chain([&WIDE]) {
        let counted = Counted::new(format);
        for (name, rounding) in ROUNDINGS {
            for x in counted.patterns() {
                let expected = match format.classify(x) {
                    Class::Nan => format.quieted(x),
                    Class::Infinite | Class::Zero => x,
                    Class::Subnormal | Class::Normal => {
                        let integer = picked(name, counted.value(x), counted.one);
                        counted.pattern(integer, counted.is_negative(x))
                    }
                };
                assert_eq!(rounding(format, x), expected, "{name} {format:?} {x:x}");
            }
        }
    }
}

#[test]
fn lround_gives_round_or_refuses() {
    for format in SMALL.iter().chain([&WIDE]) {
        let counted = Counted::new(format);
        let mut refused = 0;
        for x in counted.patterns() {
            let expected = match format.classify(x) {
                Class::Nan => Answer::refused(1, 0),
                Class::Infinite => Answer::refused(3, 0),
                Class::Zero | Class::Subnormal | Class::Normal => {
                    let integer = picked("round", counted.value(x), counted.one) / counted.one;
                    if (-(1 << 63)..1 << 63).contains(&integer) {
                        Answer::whole(integer as i64)
                    } else {
                        Answer::refused(3, 0)
                    }
                }
            };
            assert_eq!(rounding::lround(format, x), expected, "{format:?} {x:x}");
            refused += (expected.refusal == 3) as u32;
        }
        // The infinities, and in the wide format 2^63 and ±1.5 · 2^63, but not -2^63.
        assert_eq!(refused, if *format == WIDE { 5 } else { 2 }, "{format:?}");
    }
}

/// The same at the widths in use, by what has to hold of a result.
#[test]
fn roundings_at_the_widths_in_use() {
    for (format, one_log2) in [(BINARY64, 1074), (BINARY32, 149), (BINARY16, 24)] {
        let one = Natural::power_of_two(one_log2);
        let mut numbers = edges(&format);
        numbers.retain(|&x| !matches!(format.classify(x), Class::Nan | Class::Infinite));
        for x in numbers {
            let negative = format.is_negative(x);
            let exact = format.magnitude(x);
            for (name, rounding) in ROUNDINGS {
                let result = rounding(&format, x);
                let rounded = format.magnitude(result);
                let (integer, rest) = rounded.div_rem_power_of_two(one_log2);
                assert_eq!(format.is_negative(result), negative, "{name} {x:x}");
                assert!(rest.is_zero(), "{name} {x:x} is no integer");

                let farther = rounded > exact;
                let (low, high) = if farther {
                    (&exact, &rounded)
                } else {
                    (&rounded, &exact)
                };
                let moved = high - low;
                assert!(moved < one, "{name} {x:x} is not beside it");

                let against_half = (&moved * 2).cmp(&one);
                let half_goes = |as_it_should: bool| {
                    against_half.is_lt() || against_half.is_eq() && as_it_should
                };
                let holds = match name {
                    _ if moved.is_zero() => true,
                    "floor" => farther == negative,
                    "ceil" => farther != negative,
                    "trunc" => !farther,
                    "round" => half_goes(farther),
                    "nearbyint" => half_goes(!integer.is_odd()),
                    _ => false,
                };
                assert!(holds, "{name} {x:x}");
            }
        }
    }
}

#[test]
fn ceil_is_the_negation_of_floor_of_the_negation() {
    for format in SMALL {
        for x in Counted::new(&format).patterns() {
            if format.classify(x) != Class::Nan {
                let negated = format.negate(rounding::floor(&format, format.negate(x)));
                assert_eq!(rounding::ceil(&format, x), negated, "{format:?} {x:x}");
            }
        }
    }
}

#[test]
fn roundings_are_monotone_and_idempotent() {
    for format in SMALL {
        let mut numbers: Vec<u64> = Counted::new(&format).patterns().collect();
        numbers.retain(|&x| format.classify(x) != Class::Nan);
        numbers.sort_by_key(|&x| format.rank(x));
        for (name, rounding) in ROUNDINGS {
            let rounded: Vec<u64> = numbers.iter().map(|&x| rounding(&format, x)).collect();
            let ranks = rounded.iter().map(|&x| format.rank(x));
            assert!(ranks.is_sorted(), "{name} {format:?}");
            for x in rounded {
                assert_eq!(rounding(&format, x), x, "{name} {format:?}");
            }
        }
    }
}
