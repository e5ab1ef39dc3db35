//! fmod.

use crate::counting::{Counted, PAIRED};
use estrenwind_tests::answer::Answer;
use estrenwind_tests::reference::{fmod, Class};

/// Of all numbers only one has x's sign, lies below |y| and differs from x by a multiple of y.
#[test]
fn fmod_differs_from_x_by_a_multiple_of_y() {
    for format in PAIRED {
        let counted = Counted::new(&format);
        for x in counted.patterns() {
            for y in counted.patterns() {
                let answer = fmod::fmod(&format, x, y);
                let case = || format!("{format:?} {x:x} {y:x}");
                let expected = match (format.classify(x), format.classify(y)) {
                    (Class::Nan, _) => Answer::word(format.quieted(x)),
                    (_, Class::Nan) => Answer::word(format.quieted(y)),
                    (Class::Infinite, _) | (_, Class::Zero) => {
                        let infinity = counted.signed(counted.infinity(), false);
                        Answer::refused(2, infinity + (1 << (format.fraction_bits - 1)))
                    }
                    (_, Class::Infinite) => Answer::word(x),
                    _ => {
                        let (a, b) = (counted.value(x), counted.value(y));
                        let rest = counted.value(answer.words[0]);
                        assert_eq!((a - rest) % b, 0, "{}", case());
                        assert!(rest.abs() < b.abs(), "{}", case());
                        let negative = counted.is_negative(answer.words[0]);
                        assert_eq!(negative, counted.is_negative(x), "{}", case());
                        Answer::word(answer.words[0])
                    }
                };
                assert_eq!(answer, expected, "{}", case());
            }
        }
    }
}
