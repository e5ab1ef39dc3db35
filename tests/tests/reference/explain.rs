//! Explanations: the reasons against the refusals of the range rules, which facts can be true at
//! once, and the two ways of working values.

use crate::recipe::both_ways_give_the_same;
use estrenwind_tests::patterns::Random;
use estrenwind_tests::recipes::reasons::FACTS;
use estrenwind_tests::recipes::ExplainCall;
use estrenwind_tests::reference::recipe::explain::{reasons, Operand, REASONS};
use estrenwind_tests::reference::recipe::{Operation, Range, Way, OPERATIONS};
use std::collections::BTreeSet;

/// The steps that work on others.
fn operations() -> impl Iterator<Item = &'static Operation> {
    OPERATIONS
        .iter()
        .filter(|operation| operation.function().is_some())
}

/// The codes of the facts that are true of a step on these.
fn codes(way: Way, operation: &'static Operation, [a, b]: [Range; 2]) -> Vec<u8> {
    let reasons = reasons(way, operation, a, b);
    reasons.map(|reason| reason.code).collect()
}

/// "Codes in order": from 01 to 13, one after the other for each opcode. "For 06, 07 and ldexp the
/// operand given is A." W-208: "12, 13 .. naming A".
#[test]
fn codes_are_in_order() {
    let codes: Vec<u8> = REASONS.iter().map(|reason| reason.code).collect();
    assert!(codes.is_sorted());
    let codes: BTreeSet<u8> = codes.into_iter().collect();
    assert!(codes.into_iter().eq(0x01..=0x13));
    for reason in &REASONS {
        let expected = match reason.code {
            0x01 | 0x10 | 0x11 => Operand::B,
            _ => Operand::A,
        };
        assert_eq!(reason.operand, expected, "{:x}", reason.code);
    }
}

/// Where the rules refuse, a fact of the opcode is true, and where one is, they refuse: 20 for 01
/// to 03 and 0e to 11, 21 for 04 to 0b, 12 and 13, 22 for 0c and 0d.
#[test]
fn a_step_is_refused_exactly_where_a_fact_is_true() {
    let mut random = Random::new(0x520);
    for operation in operations() {
        let function = operation.function().unwrap();
        for _ in 0..4_000 {
            let [a, b] = random.operands(operation, false);
            let first = reasons(Way::Exact, operation, a, b).next();
            let refusal = first.map(|reason| match reason.code {
                0x01..=0x03 | 0x0e..=0x11 => 20,
                0x04..=0x0b | 0x12 | 0x13 => 21,
                _ => 22,
            });
            let given = function.range(Way::Exact, a, b).err();
            assert_eq!(refusal, given, "{:x} of {a:x?}, {b:x?}", operation.opcode);
        }
    }
}

/// The sets that the tests go through are all that there are, and each comes to be.
#[test]
fn the_facts_that_can_be_true_at_once() {
    for same in [false, true] {
        let mut random = Random::new(0x521);
        let mut found = BTreeSet::new();
        let shares = |operation: &&Operation| {
            let kinds = operation.source.operands();
            !same || kinds.len() == 2 && kinds[0] == kinds[1]
        };
        for operation in operations().filter(shares) {
            for _ in 0..40_000 {
                let [a, b] = random.operands(operation, same);
                let codes = codes(Way::Short, operation, [a, b]);
                if !codes.is_empty() {
                    found.insert((operation.opcode, codes));
                }
            }
        }
        let listed = FACTS.iter().filter(|facts| !same || facts.of_one_step);
        let listed: BTreeSet<(u8, Vec<u8>)> = listed
            .map(|facts| (facts.opcode, facts.codes.to_vec()))
            .collect();
        assert_eq!(found, listed, "of one step: {same}");
    }
}

#[test]
fn both_ways_give_the_same_explanation() {
    both_ways_give_the_same::<ExplainCall>(0x522);
}

/// Every fact, not the first alone.
#[test]
fn both_ways_give_the_same_facts() {
    let mut random = Random::new(0x523);
    for operation in operations() {
        for _ in 0..2_000 {
            let [a, b] = random.operands(operation, false);
            let ways = [Way::Exact, Way::Short];
            let [exact, short] = ways.map(|way| codes(way, operation, [a, b]));
            assert_eq!(exact, short, "{:x} of {a:x?}, {b:x?}", operation.opcode);
        }
    }
}
