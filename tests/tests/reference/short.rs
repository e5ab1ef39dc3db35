//! The short form gives the authority's answers.

use crate::counting::{Counted, PAIRED, SMALL, WIDE};
use estrenwind_tests::functions::{Function, FUNCTIONS};
use estrenwind_tests::operands::Operands;
use estrenwind_tests::patterns::Random;
use estrenwind_tests::reference::Format;

fn check(function: &Function, format: &Format, [x, y]: [u64; 2]) {
    let expected = (function.reference)(format, x, y);
    let answer = (function.short)(format, x, y);
    assert_eq!(answer, expected, "{} {format:?} {x:x} {y:x}", function.name);
}

/// The functions whose operands are as asked for.
fn functions_of(is_asked: fn(&Operands) -> bool) -> impl Iterator<Item = &'static Function> {
    FUNCTIONS
        .iter()
        .filter(move |function| is_asked(&function.operands))
}

#[test]
fn on_every_pattern_of_small_formats() {
    for function in functions_of(Operands::is_one_pattern) {
        for format in SMALL.iter().chain([&WIDE]) {
            for x in Counted::new(format).patterns() {
                check(function, format, [x, 0]);
            }
        }
    }
}

#[test]
fn on_every_pair_of_patterns_of_small_formats() {
    for function in functions_of(Operands::is_two_patterns) {
        for format in PAIRED.iter().chain([&WIDE]) {
            let counted = Counted::new(format);
            for x in counted.patterns() {
                for y in counted.patterns() {
                    check(function, format, [x, y]);
                }
            }
        }
    }
}

#[test]
fn on_every_pattern_of_small_formats_and_every_power() {
    for function in functions_of(|operands| *operands == Operands::PatternAndWhole) {
        for format in SMALL.iter().chain([&WIDE]) {
            let most = format.infinity_log2() as i64 + 4;
            let ends = [i64::MIN, i64::MIN + 1, i64::MAX - 1, i64::MAX];
            for x in Counted::new(format).patterns() {
                for n in (-most..=most).chain(ends) {
                    check(function, format, [x, n as u64]);
                }
            }
        }
    }
}

#[test]
fn on_edges_and_random_patterns() {
    for function in &FUNCTIONS {
        for format in function.formats() {
            for operands in function.operands.edges(format) {
                check(function, format, operands);
            }
            if function.operands.edges_are_all(format) {
                continue;
            }
            let mut random = Random::new(0x300);
            for _ in 0..500_000 {
                check(
                    function,
                    format,
                    function.operands.random(format, &mut random),
                );
            }
        }
    }
}
