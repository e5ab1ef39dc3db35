//! The library gives the reference's answers, bit for bit.

use estrenwind_tests::comparison::{check_every_function, first_difference};
use estrenwind_tests::functions::{Function, Reference};
use estrenwind_tests::patterns::Random;

#[test]
fn on_every_edge_pattern() {
    check_every_function(|function, format| {
        let edges = function.operands.edges(format).into_iter();
        let cases = edges.map(|[x, y]| ([x, y], (function.reference)(format, x, y)));
        first_difference(function, format, cases)
    });
}

fn on_random_patterns(seed: u64, count: usize, reference: impl Fn(&Function) -> Reference + Sync) {
    check_every_function(|function, format| {
        if function.operands.edges_are_all(format) {
            return None;
        }
        let reference = reference(function);
        let mut random = Random::new(seed + function.number as u64);
        let cases = (0..count).map(|_| {
            let [x, y] = function.operands.random(format, &mut random);
            ([x, y], reference(format, x, y))
        });
        first_difference(function, format, cases)
    });
}

#[test]
fn on_a_million_random_patterns_by_the_authority() {
    on_random_patterns(0x000, 1_000_000, |function| function.reference);
}

#[test]
fn on_ten_million_random_patterns_by_the_short_form() {
    on_random_patterns(0x400, 10_000_000, |function| function.short);
}
