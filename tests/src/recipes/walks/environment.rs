//! The same outcome whatever floating-point environment the host has set.

use crate::environment::{leaves_a_trace, ENVIRONMENTS};
use crate::patterns::Random;
use crate::recipes::comparison::Outcome;
use crate::recipes::faults::damaged;
use crate::recipes::growing::grow_marked;
use crate::recipes::Call;
use crate::reference::recipe::text::LINE;
use crate::reference::recipe::{Way, OPERATIONS};

/// Calls that are answered, calls with a fault, recipes whose sheets have many marks, and recipes in
/// which zeros of both signs meet, by turns.
fn calls<C: Call>(seed: u64, rounds: usize) -> Vec<C> {
    let mut random = Random::new(seed);
    let mut calls = Vec::new();
    for _ in 0..rounds {
        for &fault in C::REFUSALS {
            calls.push(damaged(&mut random, &[]).0);
            calls.push(damaged(&mut random, &[fault]).0);
            let plan = random.plan();
            calls.push(C::of(&grow_marked(&mut random, &plan).0));
            calls.push(C::of(&random.meeting()));
        }
    }
    expect_every_opcode(&calls);
    calls
}

/// Stops where a step of some opcode is in none of these texts.
fn expect_every_opcode<C: Call>(calls: &[C]) {
    for operation in &OPERATIONS {
        let digits = format!("{:02x}", operation.opcode);
        let is_met = |call: &C| {
            let mut lines = call.text().chunks(LINE);
            lines.any(|line| line.starts_with(digits.as_bytes()))
        };
        assert!(calls.iter().any(is_met), "no step {digits}");
    }
}

pub fn the_same_in_every_environment<C: Call>(seed: u64, rounds: usize) {
    each_the_same_in_every_environment(calls::<C>(seed, rounds));
}

/// The same of these calls.
pub fn each_the_same_in_every_environment<C: Call>(calls: Vec<C>) {
    let expected = |call: C| {
        let outcome = Outcome::expected(Way::Short, &call);
        (call, outcome)
    };
    let calls: Vec<_> = calls.into_iter().map(expected).collect();
    for environment in ENVIRONMENTS {
        let found = environment.run(|| {
            let found = calls.iter().find_map(|(call, expected)| {
                let outcome = Outcome::library(call);
                (outcome != *expected).then_some((call, outcome, expected))
            });
            assert!(environment.is_in_force(), "{}", environment.name);
            found
        });
        if let Some((call, outcome, expected)) = found {
            let difference = outcome.difference(expected, call).unwrap();
            panic!("{}: {difference}", environment.name);
        }
    }
}

/// Integer arithmetic raises nothing. A floating-point operation shows by what it raises, even
/// where its answers happen to be right.
pub fn no_floating_point_operation<C: Call>(seed: u64, rounds: usize) {
    no_floating_point_operation_in(calls::<C>(seed, rounds));
}

/// The same of these calls.
pub fn no_floating_point_operation_in<C: Call>(calls: Vec<C>) {
    for call in calls {
        assert!(!leaves_a_trace(|| Outcome::library(&call)), "{call}");
    }
}
