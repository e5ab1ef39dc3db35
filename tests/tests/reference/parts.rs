//! modf and frexp.

use crate::counting::{Counted, SMALL, WIDE};
use estrenwind_tests::answer::Answer;
use estrenwind_tests::reference::{parts, Class};

/// Of all pairs only one is an integer and a number below 1, of x's sign, that make up x.
#[test]
fn modf_gives_an_integer_and_a_number_below_one_that_make_up_x() {
    for format in SMALL.iter().chain([&WIDE]) {
        let counted = Counted::new(format);
        for x in counted.patterns() {
            let answer = parts::modf(format, x);
            let [whole, fraction] = answer.words;
            let case = || format!("{format:?} {x:x}");
            assert_eq!(answer.refusal, 0, "{}", case());
            match format.classify(x) {
                Class::Nan => assert_eq!([whole, fraction], [format.quieted(x); 2], "{}", case()),
                Class::Infinite => {
                    assert_eq!(whole, x, "{}", case());
                    assert_eq!(
                        fraction,
                        counted.pattern(0, counted.is_negative(x)),
                        "{}",
                        case()
                    );
                }
                Class::Zero | Class::Subnormal | Class::Normal => {
                    let (integer, rest) = (counted.value(whole), counted.value(fraction));
                    assert_eq!(integer % counted.one, 0, "{}", case());
                    assert!(rest.abs() < counted.one, "{}", case());
                    assert_eq!(integer + rest, counted.value(x), "{}", case());
                    for part in [whole, fraction] {
                        assert_eq!(
                            counted.is_negative(part),
                            counted.is_negative(x),
                            "{}",
                            case()
                        );
                    }
                }
            }
        }
    }
}

#[test]
fn frexp_gives_a_fraction_from_one_half_up_and_its_power() {
    for format in SMALL.iter().chain([&WIDE]) {
        let counted = Counted::new(format);
        for x in counted.patterns() {
            let answer = parts::frexp(format, x);
            let [fraction, exponent] = answer.words;
            let exponent = exponent as i64;
            let case = || format!("{format:?} {x:x}");
            match format.classify(x) {
                Class::Nan => assert_eq!(answer, Answer::pair(format.quieted(x), 0), "{}", case()),
                Class::Infinite | Class::Zero => {
                    assert_eq!(answer, Answer::pair(x, 0), "{}", case())
                }
                Class::Subnormal | Class::Normal => {
                    assert_eq!(answer.refusal, 0, "{}", case());
                    let (value, part) = (counted.value(x), counted.value(fraction));
                    assert!(part.abs() < counted.one, "{}", case());
                    assert!(2 * part.abs() >= counted.one, "{}", case());
                    if exponent >= 0 {
                        assert_eq!(part << exponent, value, "{}", case());
                    } else {
                        assert_eq!(part, value << -exponent, "{}", case());
                    }
                }
            }
        }
    }
}
