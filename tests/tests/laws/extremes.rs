//! fmin and fmax on numbers: they sort two operands in the order of the language that has -0 before
//! +0 (W-202), so neither the order nor the grouping of operands matters.

use crate::language::language;
use crate::{cases, library, numbers};
use estrenwind_tests::functions::{Library, FORMATS};
use estrenwind_tests::reference::Format;
use std::array;

fn extremes(format: &Format) -> [(&'static str, Library); 2] {
    ["fmin", "fmax"].map(|name| (name, library(name, format)))
}

/// Numbers of both signs at every limit, few enough that every four of them are tried.
fn limits(format: &Format) -> Vec<u64> {
    let (smallest_normal, one) = (
        1 << format.fraction_bits,
        format.bias() << format.fraction_bits,
    );
    let infinity = format.infinity();
    let limits = [
        0,
        1,
        2,
        smallest_normal - 1,
        smallest_normal,
        one - 1,
        one,
        one + 1,
        infinity - 1,
        infinity,
    ];
    let both_signs = |x| [x, format.negate(x)];
    limits.into_iter().flat_map(both_signs).collect()
}

/// As many of the limits as are asked for, in every way.
fn every<const N: usize>(format: &Format) -> Vec<[u64; N]> {
    let limits = limits(format);
    let count = limits.len().pow(N as u32);
    let digit =
        |number: usize, place: usize| number / limits.len().pow(place as u32) % limits.len();
    let chosen = |number| array::from_fn(|place| limits[digit(number, place)]);
    (0..count).map(chosen).collect()
}

/// Three operands: every three limits; and each case with a number of the next one, with either
/// zero, and with its own first operand negated.
fn triples<'a>(
    format: &'a Format,
    cases: &'a [[u64; 2]],
) -> impl Iterator<Item = [u64; 3]> + use<'a> {
    let of_cases = cases
        .iter()
        .zip(&cases[1..])
        .flat_map(|(&[x, y], &[next, _])| {
            let thirds = [next, 0, format.sign_bit(), format.negate(x)];
            thirds.map(|z| [x, y, z])
        });
    every(format).into_iter().chain(of_cases)
}

/// Four operands: every four limits, and each case with the next one.
fn fours<'a>(format: &Format, cases: &'a [[u64; 2]]) -> impl Iterator<Item = [u64; 4]> + use<'a> {
    let of_cases = cases
        .iter()
        .zip(&cases[1..])
        .map(|(&[x, y], &[u, v])| [x, y, u, v]);
    every(format).into_iter().chain(of_cases)
}

/// Without these pairs the laws would say nothing about W-202.
#[test]
fn both_zeros_in_both_orders_are_among_the_cases() {
    for format in FORMATS {
        let (plus, minus) = (0, format.sign_bit());
        for pair in [[plus, minus], [minus, plus]] {
            assert!(cases("fmin", &format).contains(&pair));
            assert!(every(&format).contains(&pair));
        }
    }
}

/// "In whichever order they come", bit for bit.
#[test]
fn fmin_and_fmax_commute() {
    for format in FORMATS {
        for (name, extreme) in extremes(&format) {
            for [x, y] in cases("fmin", &format) {
                assert_eq!(extreme(x, y), extreme(y, x), "{name} {x:x} {y:x}");
            }
        }
    }
}

#[test]
fn fmin_and_fmax_are_associative() {
    for format in FORMATS {
        let cases = cases("fmin", &format);
        for (name, extreme) in extremes(&format) {
            for [x, y, z] in triples(&format, &cases) {
                let first_two = extreme(extreme(x, y).words[0], z);
                let last_two = extreme(x, extreme(y, z).words[0]);
                assert_eq!(first_two, last_two, "{name} {x:x} {y:x} {z:x}");
            }
        }
    }
}

#[test]
fn fmin_and_fmax_are_idempotent() {
    for format in FORMATS {
        for (name, extreme) in extremes(&format) {
            for x in numbers(&format) {
                assert_eq!(extreme(x, x).words[0], x, "{name} {x:x}");
            }
        }
    }
}

/// As numbers, and in the order that has -0 before +0.
#[test]
fn fmin_and_fmax_bound_both_operands() {
    for format in FORMATS {
        let [(_, fmin), (_, fmax)] = extremes(&format);
        let language = language(&format);
        let bounds =
            |low, high| (language.at_most)(low, high) && (language.order)(low, high).is_le();
        for [x, y] in cases("fmin", &format) {
            let (low, high) = (fmin(x, y).words[0], fmax(x, y).words[0]);
            for operand in [x, y] {
                assert!(bounds(low, operand), "fmin {x:x} {y:x}: {low:x}");
                assert!(bounds(operand, high), "fmax {x:x} {y:x}: {high:x}");
            }
        }
    }
}

/// -Inf and Inf bound every operand too.
#[test]
fn fmin_and_fmax_are_the_two_operands() {
    for format in FORMATS {
        let [(_, fmin), (_, fmax)] = extremes(&format);
        for [x, y] in cases("fmin", &format) {
            let both = [fmin(x, y).words[0], fmax(x, y).words[0]];
            assert!(both == [x, y] || both == [y, x], "{x:x} {y:x}: {both:x?}");
        }
    }
}

/// Operands that don't fall give answers that don't fall, in the order that has -0 before +0.
#[test]
fn fmin_and_fmax_are_monotone() {
    for format in FORMATS {
        let order = language(&format).order;
        let sorted = |x, y| if order(x, y).is_le() { [x, y] } else { [y, x] };
        let cases = cases("fmin", &format);
        for (name, extreme) in extremes(&format) {
            for [x, y, u, v] in fours(&format, &cases) {
                let ([x, u], [y, v]) = (sorted(x, u), sorted(y, v));
                let (low, high) = (extreme(x, y).words[0], extreme(u, v).words[0]);
                assert!(
                    order(low, high).is_le(),
                    "{name} {x:x} {y:x}: {low:x}, of {u:x} {v:x}: {high:x}"
                );
            }
        }
    }
}

#[test]
fn fmax_is_fmin_of_the_negations_negated() {
    for format in FORMATS {
        let [(_, fmin), (_, fmax)] = extremes(&format);
        let negate = library("negate", &format);
        let negate = |x| negate(x, 0).words[0];
        for [x, y] in cases("fmin", &format) {
            let least = fmin(negate(x), negate(y)).words[0];
            assert_eq!(fmax(x, y).words[0], negate(least), "{x:x} {y:x}");
        }
    }
}
