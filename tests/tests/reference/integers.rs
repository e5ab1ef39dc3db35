//! Which numbers are integers.

use crate::counting::{Counted, SMALL, WIDE};
use estrenwind_tests::patterns::{edges, Random};
use estrenwind_tests::reference::{short, whole, Class, BINARY32, BINARY64};

/// A finite number is one where its count of units is so many times that of 1.0.
#[test]
fn by_counting_on_every_pattern_of_small_formats() {
    for format in SMALL.iter().chain([&WIDE]) {
        let counted = Counted::new(format);
        let mut integers = 0;
        for x in counted.patterns() {
            let expected = match format.classify(x) {
                Class::Nan | Class::Infinite => false,
                Class::Zero | Class::Subnormal | Class::Normal => {
                    counted.value(x) % counted.one == 0
                }
            };
            let integral = whole::is_finite_and_integral(format, x);
            assert_eq!(integral, expected, "{format:?} {x:x}");
            integers += integral as u64;
        }
        assert!(integers > 4, "{format:?}: {integers}");
    }
}

/// The two ways, and the language's own.
#[test]
fn as_the_short_form_and_the_language_have_it() {
    let mut random = Random::new(0x520);
    let mut patterns = edges(&BINARY64);
    patterns.extend((0..1_000_000).map(|_| random.pattern(&BINARY64)));
    patterns.extend((0..100_000).map(|_| random.integral()));
    let mut met = [0; 2];
    for x in patterns {
        let double = f64::from_bits(x);
        let expected = double.is_finite() && double.trunc() == double;
        assert_eq!(
            whole::is_finite_and_integral(&BINARY64, x),
            expected,
            "{x:x}"
        );
        let short = short::whole::is_finite_and_integral(&BINARY64, x);
        assert_eq!(short, expected, "{x:x}");
        met[expected as usize] += 1;
    }
    assert!(met.iter().all(|&count| count > 200_000), "{met:?}");
    for x in edges(&BINARY32) {
        let float = f32::from_bits(x as u32);
        let expected = float.is_finite() && float.trunc() == float;
        assert_eq!(
            whole::is_finite_and_integral(&BINARY32, x),
            expected,
            "{x:x}"
        );
        let short = short::whole::is_finite_and_integral(&BINARY32, x);
        assert_eq!(short, expected, "{x:x}");
    }
}
