//! The same run whatever floating-point environment the host has set.

use estrenwind_tests::patterns::Random;
use estrenwind_tests::recipes::walks::environment::{
    each_the_same_in_every_environment, no_floating_point_operation,
    no_floating_point_operation_in, the_same_in_every_environment,
};
use estrenwind_tests::recipes::{Draft, Line, RunCall};
use estrenwind_tests::reference::BINARY64;

/// Sums, differences and products where a rounding direction, FTZ or DAZ would show in an operation of
/// floats, and steps on them in turn.
fn of_sums(seed: u64, count: usize) -> Vec<RunCall> {
    let mut random = Random::new(seed);
    let any = Line::input_of([f64::NEG_INFINITY, f64::INFINITY]);
    let call = |_| {
        let mut lines = vec![any, any];
        lines.extend([0x40, 0x41, 0x42].map(|opcode| Line::step(opcode, 0, 1)));
        let [one, other] = [0, 1].map(|_| 2 + random.below(3) as usize);
        lines.push(Line::step(0x40 + random.below(3) as u8, one, other));
        let words = random.finite_pair(&BINARY64).to_vec();
        Draft { lines, words }.run_call()
    };
    (0..count).map(call).collect()
}

#[test]
fn answers_are_the_same_in_every_environment() {
    the_same_in_every_environment::<RunCall>(28, 700);
    each_the_same_in_every_environment(of_sums(30, 60_000));
}

#[test]
fn a_run_does_no_floating_point_operation() {
    no_floating_point_operation::<RunCall>(29, 200);
    no_floating_point_operation_in(of_sums(31, 20_000));
}
