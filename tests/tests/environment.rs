//! The library gives the same bits whatever floating-point environment its host has set.

#![cfg(target_arch = "x86_64")]

use estrenwind_tests::comparison::{check_every_function, first_difference};
use estrenwind_tests::environment::{leaves_a_trace, Environment, ENVIRONMENTS};
use estrenwind_tests::functions::Function;
use estrenwind_tests::patterns::Random;
use estrenwind_tests::reference::Format;
use std::arch::asm;
use std::panic;

const DEFAULT: Environment = ENVIRONMENTS[0];

/// The edges, and `count` random cases where these are not all.
fn cases(function: &Function, format: &Format, count: usize) -> Vec<[u64; 2]> {
    let mut random = Random::new(0x100 + function.number as u64);
    let mut cases = function.operands.edges(format);
    if !function.operands.edges_are_all(format) {
        cases.extend((0..count).map(|_| function.operands.random(format, &mut random)));
    }
    cases
}

#[test]
fn answers_are_the_same_in_every_environment() {
    check_every_function(|function, format| {
        let cases: Vec<_> = cases(function, format, 1_000_000)
            .into_iter()
            .map(|[x, y]| ([x, y], (function.short)(format, x, y)))
            .collect();
        ENVIRONMENTS.iter().find_map(|environment| {
            environment.run(|| {
                let difference = first_difference(function, format, cases.iter().copied());
                if !environment.is_in_force() {
                    return Some(format!("{} left another environment", function.name));
                }
                difference.map(|difference| format!("{}: {difference}", environment.name))
            })
        })
    });
}

/// Integer arithmetic raises nothing. A floating-point operation shows by what it raises, even
/// where its answers happen to be right.
#[test]
fn no_function_does_a_floating_point_operation() {
    check_every_function(|function, format| {
        let library = function.library(format);
        let cases = cases(function, format, 100_000);
        let traced = |[x, y]: &&[u64; 2]| leaves_a_trace(|| library(*x, *y));
        let [x, y] = cases.iter().find(traced)?;
        Some(format!("{} {} {x:x} {y:x}", function.name, format.width()))
    });
}

/// The nearest integer by the machine's own rounding.
fn converted(x: f64) -> i64 {
    let integer;
    // SAFETY: reads one register, writes another.
    unsafe { asm!("cvtsd2si {}, {}", out(reg) integer, in(xmm_reg) x) };
    integer
}

/// The product by the machine, as a pattern.
fn product(x: u64, y: u64) -> u64 {
    let mut product = f64::from_bits(x);
    // SAFETY: reads one register, changes another.
    unsafe { asm!("mulsd {}, {}", inout(xmm_reg) product, in(xmm_reg) f64::from_bits(y)) };
    product.to_bits()
}

/// An environment that changed nothing would let every library pass.
#[test]
fn an_environment_changes_what_the_machine_does() {
    let three_and_a_half = [(4, -4), (3, -4), (4, -3), (3, -3)];
    let [smallest, smallest_normal] = [0x0000000000000001, 0x0010000000000000];
    let [half, huge] = [0x3fe0000000000000, 0x7fe0000000000000];
    for (i, environment) in ENVIRONMENTS.iter().enumerate() {
        let name = environment.name;
        let rounded = environment.run(|| (converted(3.5), converted(-3.5)));
        assert_eq!(rounded, three_and_a_half[i % 4], "{name}");
        // A normal product of a subnormal operand tells DAZ, a subnormal one of normals FTZ.
        let flushed = i >= 4;
        let daz = environment.run(|| product(smallest, huge)) == 0;
        let ftz = environment.run(|| product(smallest_normal, half)) == 0;
        assert_eq!((daz, ftz), (flushed, flushed), "{name}");
    }
}

#[test]
fn an_environment_ends_with_its_work() {
    for environment in ENVIRONMENTS {
        assert!(environment.run(|| environment.is_in_force()));
        assert!(DEFAULT.is_in_force());
        let stopped =
            panic::catch_unwind(|| environment.run(|| panic::resume_unwind(Box::new(()))));
        assert!(stopped.is_err());
        assert!(DEFAULT.is_in_force());
    }
}

#[test]
fn a_trace_is_seen() {
    let one = 0x3ff0000000000000;
    assert!(!leaves_a_trace(|| product(one, one)));
    assert!(leaves_a_trace(|| product(1, one))); // subnormal operand
    assert!(leaves_a_trace(|| converted(2.5))); // inexact
    assert!(leaves_a_trace(|| converted(f64::NAN))); // invalid
}
