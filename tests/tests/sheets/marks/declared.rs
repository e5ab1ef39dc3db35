//! Inputs and constants: "a constant or one-number input that is finite and integral"; "every
//! whole-kind step". One number is one as numbers compare, so from +0 to -0 is one, in either order.

use super::marks;
use estrenwind_tests::patterns::edges;
use estrenwind_tests::recipes::limits::{INF, LEAST, MAX, MOST, TINY, TWO_63};
use estrenwind_tests::recipes::shown::is_finite_and_integral;
use estrenwind_tests::recipes::{Ends, Line};
use estrenwind_tests::reference::recipe::text::{MOST_INPUTS, MOST_STEPS};
use estrenwind_tests::reference::recipe::Kind;
use estrenwind_tests::reference::{Class, BINARY64};

/// 2^52: from here on every double is an integer, and up to 2^53 every integer a double.
const TWO_52: f64 = 4_503_599_627_370_496.0;
const TWO_53: f64 = 9_007_199_254_740_992.0;
/// The smallest number that isn't subnormal, and the largest that is.
const NORMAL: f64 = f64::MIN_POSITIVE;
const SUBNORMAL: f64 = f64::from_bits(0x000fffffffffffff);

#[test]
#[rustfmt::skip]
fn double_inputs() {
    for (p, q, mark, why) in [
        // One number, and it is finite and integral.
        (3.0,              3.0,              true,  "an integer"),
        (-3.0,             -3.0,             true,  "an integer"),
        (1.0,              1.0,              true,  "an integer"),
        (0.0,              0.0,              true,  "zero"),
        (-0.0,             -0.0,             true,  "zero"),
        (0.0,              -0.0,             true,  "the zeros are one number"),
        (-0.0,             0.0,              true,  "the zeros are one number"),
        (TWO_52 - 1.0,     TWO_52 - 1.0,     true,  "below 2^52"),
        (TWO_52,           TWO_52,           true,  "2^52"),
        (TWO_52 + 1.0,     TWO_52 + 1.0,     true,  "odd, beyond 2^52"),
        (TWO_53 + 2.0,     TWO_53 + 2.0,     true,  "beyond 2^53"),
        (-TWO_63,          -TWO_63,          true,  "a whole number of 64 bits"),
        (TWO_63 * 2.0,     TWO_63 * 2.0,     true,  "beyond them"),
        (MAX,              MAX,              true,  "the largest"),
        (-MAX,             -MAX,             true,  "the least"),
        // One number, and it isn't.
        (0.5,              0.5,              false, "a fraction"),
        (-2.5,             -2.5,             false, "a fraction"),
        (TWO_52 - 0.5,     TWO_52 - 0.5,     false, "the last with a fraction"),
        (0.5 - TWO_52,     0.5 - TWO_52,     false, "the last with a fraction, negated"),
        (1.0f64.next_up(), 1.0f64.next_up(), false, "beside an integer"),
        (3.0f64.next_down(), 3.0f64.next_down(), false, "beside an integer"),
        (TINY,             TINY,             false, "subnormal"),
        (-SUBNORMAL,       -SUBNORMAL,       false, "subnormal"),
        (NORMAL,           NORMAL,           false, "small"),
        (INF,              INF,              false, "not finite"),
        (-INF,             -INF,             false, "not finite"),
        // More than one number, whether or not its ends are integers.
        (-2.5,             7.25,             false, "many"),
        (-3.0,             7.0,              false, "many"),
        (3.0,              3.0f64.next_up(), false, "two"),
        (3.0f64.next_down(), 3.0,            false, "two"),
        (2.5,              2.5f64.next_up(), false, "two"),
        (TWO_52,           TWO_52 + 1.0,     false, "two, both integers"),
        (TWO_53,           TWO_53 + 2.0,     false, "two, both integers"),
        (MAX.next_down(),  MAX,              false, "two, both integers"),
        (0.0,              1.0,              false, "many"),
        (0.0,              TINY,             false, "two"),
        (-0.0,             TINY,             false, "two"),
        (-TINY,            0.0,              false, "two"),
        (-TINY,            -0.0,             false, "two"),
        (-TINY,            TINY,             false, "three"),
        (MAX,              INF,              false, "two"),
        (-INF,             -MAX,             false, "two"),
        (3.0,              INF,              false, "many"),
        (-INF,             INF,              false, "all"),
    ] {
        assert_eq!(marks(&[Line::input_of([p, q])]), [mark], "{p:e} to {q:e}: {why}");
    }
}

#[test]
#[rustfmt::skip]
fn double_constants() {
    for (p, mark, why) in [
        (0.0,              true,  "zero"),
        (-0.0,             true,  "zero"),
        (1.0,              true,  "an integer"),
        (-1.0,             true,  "an integer"),
        (7.0,              true,  "an integer"),
        (TWO_52 - 1.0,     true,  "below 2^52"),
        (TWO_52,           true,  "2^52"),
        (TWO_52 + 1.0,     true,  "odd, beyond 2^52"),
        (TWO_53 - 1.0,     true,  "the last odd one"),
        (TWO_53,           true,  "2^53"),
        (-TWO_53 - 2.0,    true,  "beyond 2^53"),
        (TWO_63,           true,  "no whole number of 64 bits, an integer all the same"),
        (MAX,              true,  "the largest"),
        (-MAX,             true,  "the least"),
        (0.5,              false, "a fraction"),
        (-0.5,             false, "a fraction"),
        (1.5,              false, "a fraction"),
        (-2.25,            false, "a fraction"),
        (1.0f64.next_down(), false, "the largest fraction"),
        (1.0f64.next_up(), false, "the smallest fraction after 1"),
        (TWO_52 - 0.5,     false, "the last with a fraction"),
        (0.5 - TWO_52,     false, "the last with a fraction, negated"),
        (TWO_52 - 1.5,     false, "the last but one"),
        (TINY,             false, "subnormal"),
        (-TINY,            false, "subnormal"),
        (SUBNORMAL,        false, "subnormal"),
        (NORMAL,           false, "small"),
        (INF,              false, "not finite"),
        (-INF,             false, "not finite"),
    ] {
        assert_eq!(marks(&[Line::constant(Kind::Double, p.to_bits())]), [mark], "{p:e}: {why}");
    }
}

/// "Every whole-kind step", of one number and of many.
#[test]
fn whole_inputs_and_constants() {
    for ends in [[LEAST, MOST], [-1, 0], [0, 0], [MOST, MOST], [LEAST, LEAST]] {
        assert_eq!(marks(&[Line::input_of(ends)]), [true], "{ends:?}");
        for p in ends.words() {
            assert_eq!(marks(&[Line::constant(Kind::Whole, p)]), [true], "{p:x}");
        }
    }
}

/// Of every exponent field, and from 1 to beyond 2^53 with every place that the last digit can have: a
/// number alone has the mark where the language finds no fraction, and never together with the next.
#[test]
fn edges_of_every_exponent() {
    let mut numbers = edges(&BINARY64);
    for field in 1023..1080u64 {
        numbers.extend((0..52).map(|place| field << 52 | 1 << place));
        numbers.extend((0..52).map(|place| 1 << 63 | field << 52 | 1 << place));
    }
    numbers.retain(|&x| BINARY64.classify(x) != Class::Nan);
    let integers = numbers.iter().filter(|&&x| is_finite_and_integral(x));
    let integers = integers.count();
    println!("{integers} of {} edges are integers", numbers.len());
    assert!(integers > 10_000 && numbers.len() - integers > 10_000);
    for numbers in numbers.chunks(MOST_STEPS) {
        let constants = numbers.iter().map(|&p| Line::constant(Kind::Double, p));
        let expected: Vec<bool> = numbers.iter().map(|&p| is_finite_and_integral(p)).collect();
        assert_eq!(marks(&constants.collect::<Vec<_>>()), expected);
    }
    for numbers in numbers.chunks(MOST_INPUTS) {
        let inputs = numbers.iter().map(|&p| Line::input(Kind::Double, [p, p]));
        let expected: Vec<bool> = numbers.iter().map(|&p| is_finite_and_integral(p)).collect();
        assert_eq!(marks(&inputs.collect::<Vec<_>>()), expected);
        let inputs = numbers.iter().map(|&p| {
            let next = f64::from_bits(p).next_up().to_bits();
            Line::input(Kind::Double, [p, next])
        });
        let inputs: Vec<Line> = inputs.filter(|input| input.p != input.q).collect();
        if !inputs.is_empty() {
            assert_eq!(marks(&inputs), vec![false; inputs.len()]);
        }
    }
}
