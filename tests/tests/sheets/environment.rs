//! The same sheet whatever floating-point environment the host has set.

use crate::promise::on_summands;
use estrenwind_tests::patterns::Random;
use estrenwind_tests::recipes::walks::environment::{
    each_the_same_in_every_environment, no_floating_point_operation,
    no_floating_point_operation_in, the_same_in_every_environment,
};
use estrenwind_tests::recipes::SheetCall;

/// Sums, differences and products on ranges at the numbers where these are hard.
fn of_sums(seed: u64, count: usize) -> Vec<SheetCall> {
    let mut random = Random::new(seed);
    let opcode = |turn: usize| 0x40 + (turn % 3) as u8;
    (0..count)
        .map(|turn| on_summands(&mut random, opcode(turn)).sheet_call())
        .collect()
}

#[test]
fn answers_are_the_same_in_every_environment() {
    the_same_in_every_environment::<SheetCall>(0x80, 400);
    each_the_same_in_every_environment(of_sums(0x82, 30_000));
}

#[test]
fn a_sheet_does_no_floating_point_operation() {
    no_floating_point_operation::<SheetCall>(0x81, 100);
    no_floating_point_operation_in(of_sums(0x83, 20_000));
}
