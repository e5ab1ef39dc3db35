//! nextafter: there, back, and nothing between.

use crate::language::language;
use crate::{cases, is_finite, library};
use estrenwind_tests::answer::Answer;
use estrenwind_tests::functions::FORMATS;
use estrenwind_tests::reference::Class;
use std::cmp::Ordering;

#[test]
fn nextafter_goes_there_and_back() {
    for format in FORMATS {
        let nextafter = library("nextafter", &format);
        for [x, y] in cases("nextafter", &format) {
            let there = nextafter(x, y).words[0];
            let order = format.rank(x).cmp(&format.rank(y));
            let moved = format.rank(x).cmp(&format.rank(there));
            assert_eq!(moved, order, "{x:x} {y:x}: {there:x}");
            if order != Ordering::Equal {
                // The two zeros are one number: back from beside it, it has the sign of that side.
                let back = nextafter(there, x).words[0];
                let expected = match format.classify(x) {
                    Class::Zero => there & format.sign_bit(),
                    _ => x,
                };
                assert_eq!(back, expected, "{x:x} {y:x} and back from {there:x}");
            }
        }
    }
}

#[test]
fn nextafter_is_the_language_s_next_number() {
    for format in FORMATS {
        let (nextafter, language) = (library("nextafter", &format), language(&format));
        for [x, y] in cases("nextafter", &format) {
            let next = match format.rank(x).cmp(&format.rank(y)) {
                Ordering::Equal => y,
                Ordering::Less => (language.next_up)(x),
                Ordering::Greater => (language.next_down)(x),
            };
            let overflow = is_finite(&format, x) && !is_finite(&format, next);
            let expected = Answer::refused(if overflow { 3 } else { 0 }, next);
            assert_eq!(nextafter(x, y), expected, "{x:x} {y:x}");
        }
    }
}

/// W-202 tells them apart in fmin and fmax alone: here a zero is as far from every y as the other.
#[test]
fn to_nextafter_the_two_zeros_are_equal() {
    for format in FORMATS {
        let nextafter = library("nextafter", &format);
        let (plus, minus) = (0, format.sign_bit());
        for x in [plus, minus] {
            for y in [plus, minus] {
                assert_eq!(nextafter(x, y), Answer::word(y), "{x:x} {y:x}");
            }
        }
        for [x, _] in cases("nextafter", &format) {
            let towards = [plus, minus].map(|zero| nextafter(x, zero));
            let from = [plus, minus].map(|zero| nextafter(zero, x));
            if format.classify(x) != Class::Zero {
                assert_eq!(towards[0], towards[1], "{x:x} towards zero");
            }
            assert_eq!(from[0], from[1], "zero towards {x:x}");
        }
    }
}
