//! The same explanation whatever floating-point environment the host has set.

use estrenwind_tests::recipes::walks::environment::{
    no_floating_point_operation, the_same_in_every_environment,
};
use estrenwind_tests::recipes::ExplainCall;

#[test]
fn answers_are_the_same_in_every_environment() {
    the_same_in_every_environment::<ExplainCall>(0xa0, 400);
}

#[test]
fn an_explanation_does_no_floating_point_operation() {
    no_floating_point_operation::<ExplainCall>(0xa1, 100);
}
