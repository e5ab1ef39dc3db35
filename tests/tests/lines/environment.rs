//! The same answers whatever floating-point environment the host has set.

use estrenwind_tests::patterns::Random;
use estrenwind_tests::recipes::lines::Recipe;
use estrenwind_tests::recipes::walks::environment::{
    each_the_same_in_every_environment, no_floating_point_operation,
    no_floating_point_operation_in, the_same_in_every_environment,
};
use estrenwind_tests::recipes::LinesCall;

/// Calls of many lines, some of whose recipes have a step that refuses.
fn of_many_lines(seed: u64, count: usize) -> Vec<LinesCall> {
    let mut random = Random::new(seed);
    let call = |round: usize| {
        let fault = [&[][..], &[20], &[21], &[22]][round % 4];
        let recipe: Recipe = random.recipe(fault);
        LinesCall {
            lines: random.lines(&recipe, 12),
            text: recipe.text,
            lent: 19 * 8 + random.below(19 * 8) as usize,
        }
    };
    (0..count).map(call).collect()
}

#[test]
fn answers_are_the_same_in_every_environment() {
    the_same_in_every_environment::<LinesCall>(34, 200);
    each_the_same_in_every_environment(of_many_lines(35, 3_000));
}

#[test]
fn no_line_takes_a_floating_point_operation() {
    no_floating_point_operation::<LinesCall>(36, 100);
    no_floating_point_operation_in(of_many_lines(37, 2_000));
}
