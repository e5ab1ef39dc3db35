//! fmod, beside the language's remainder.

use crate::language::language;
use crate::{cases, is_finite, library};
use estrenwind_tests::functions::FORMATS;
use estrenwind_tests::reference::Class;

#[test]
fn fmod_lies_below_y_and_has_the_sign_of_x() {
    for format in FORMATS {
        let fmod = library("fmod", &format);
        for [x, y] in cases("fmod", &format) {
            if is_finite(&format, x) && format.classify(y) != Class::Zero {
                let answer = fmod(x, y);
                let word = answer.words[0];
                assert_eq!(answer.refusal, 0, "{x:x} {y:x}");
                assert!(format.fabs(word) < format.fabs(y), "{x:x} {y:x}: {word:x}");
                let negative = format.is_negative(word);
                assert_eq!(negative, format.is_negative(x), "{x:x} {y:x}");
                assert_eq!(fmod(word, y), answer, "fmod of fmod, {x:x} {y:x}");
            }
        }
    }
}

/// It differs from x by a multiple of y, which the language's own remainder does too.
#[test]
fn fmod_is_the_language_s_remainder() {
    for format in FORMATS {
        let (fmod, remainder) = (library("fmod", &format), language(&format).remainder);
        for [x, y] in cases("fmod", &format) {
            if is_finite(&format, x) && format.classify(y) != Class::Zero {
                assert_eq!(fmod(x, y).words[0], remainder(x, y), "{x:x} {y:x}");
            }
        }
    }
}
