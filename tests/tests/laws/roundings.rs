//! What document 01 says of the five roundings at once.

use crate::{library, numbers};
use estrenwind_tests::answer::Answer;
use estrenwind_tests::functions::ROUNDED_FORMATS;

pub const ROUNDINGS: [&str; 5] = ["floor", "ceil", "trunc", "round", "nearbyint"];

#[test]
fn ceil_is_the_negation_of_floor_of_the_negation() {
    for format in ROUNDED_FORMATS {
        let [floor, ceil] = ["floor", "ceil"].map(|name| library(name, &format));
        for x in numbers(&format) {
            let negated = floor(format.negate(x), 0).words[0];
            assert_eq!(ceil(x, 0), Answer::word(format.negate(negated)), "{x:x}");
        }
    }
}

#[test]
fn roundings_are_idempotent() {
    for format in ROUNDED_FORMATS {
        for name in ROUNDINGS {
            let rounding = library(name, &format);
            for x in numbers(&format) {
                let once = rounding(x, 0);
                assert_eq!(rounding(once.words[0], 0), once, "{name} {x:x}");
            }
        }
    }
}

#[test]
fn roundings_are_monotone() {
    for format in ROUNDED_FORMATS {
        let mut numbers = numbers(&format);
        numbers.sort_unstable_by_key(|&x| format.rank(x));
        for name in ROUNDINGS {
            let rounding = library(name, &format);
            let mut below = format.rank(format.negate(format.infinity()));
            for &x in &numbers {
                let rank = format.rank(rounding(x, 0).words[0]);
                assert!(
                    below <= rank,
                    "{name} {x:x} is below that of a smaller number"
                );
                below = rank;
            }
        }
    }
}

/// A rounding moves a number by less than 1, and to an integer: a constant is monotone and
/// idempotent too.
#[test]
fn roundings_lie_between_floor_and_ceil() {
    for format in ROUNDED_FORMATS {
        let [floor, ceil] = ["floor", "ceil"].map(|name| library(name, &format));
        for name in ROUNDINGS {
            let rounding = library(name, &format);
            for x in numbers(&format) {
                let (low, high) = (floor(x, 0), ceil(x, 0));
                let (low_rank, high_rank) = (format.rank(low.words[0]), format.rank(high.words[0]));
                assert!(
                    low_rank <= format.rank(x) && format.rank(x) <= high_rank,
                    "{x:x}"
                );
                let answer = rounding(x, 0);
                assert!(answer == low || answer == high, "{name} {x:x}");
            }
        }
    }
}
