//! modf's parts, and frexp's.

use crate::language::language;
use crate::{is_finite, library, numbers};
use estrenwind_tests::answer::Answer;
use estrenwind_tests::functions::FORMATS;
use estrenwind_tests::reference::Class;

#[test]
fn the_parts_of_modf_add_up_to_x() {
    for format in FORMATS {
        let (modf, sum) = (library("modf", &format), language(&format).sum);
        for x in numbers(&format) {
            let [whole, fraction] = modf(x, 0).words;
            assert_eq!(sum(whole, fraction), x, "{whole:x} + {fraction:x}");
        }
    }
}

/// x and a zero add up to x too.
#[test]
fn the_parts_of_modf_are_an_integer_and_a_number_below_one() {
    for format in FORMATS {
        let [modf, trunc] = ["modf", "trunc"].map(|name| library(name, &format));
        let one = format.rank(format.bias() << format.fraction_bits);
        for x in numbers(&format) {
            let [whole, fraction] = modf(x, 0).words;
            assert_eq!(Answer::word(whole), trunc(x, 0), "{x:x}");
            assert!(format.rank(fraction).abs() < one, "{x:x}: {fraction:x}");
            let sign = format.is_negative(x);
            assert_eq!(format.is_negative(fraction), sign, "{x:x}: {fraction:x}");
        }
    }
}

#[test]
fn ldexp_undoes_frexp() {
    for format in FORMATS {
        let [frexp, ldexp] = ["frexp", "ldexp"].map(|name| library(name, &format));
        for x in numbers(&format) {
            if is_finite(&format, x) {
                let [fraction, exponent] = frexp(x, 0).words;
                assert_eq!(ldexp(fraction, exponent), Answer::word(x), "{x:x}");
            }
        }
    }
}

/// x and the power 0 are undone by ldexp too.
#[test]
fn the_fraction_of_frexp_lies_from_one_half_to_one() {
    for format in FORMATS {
        let frexp = library("frexp", &format);
        let field = |field: u64| format.rank(field << format.fraction_bits);
        let (half, one) = (field(format.bias() - 1), field(format.bias()));
        for x in numbers(&format) {
            if is_finite(&format, x) && format.classify(x) != Class::Zero {
                let rank = format.rank(frexp(x, 0).words[0]);
                assert!((half..one).contains(&rank.abs()), "{x:x}");
                assert_eq!(rank < 0, format.is_negative(x), "{x:x}");
            }
        }
    }
}
