//! Every reason, alone and beside every other that can be true with it: the first in code order is
//! given. The answers expected are those that the recipes were made for, and the reference's too.

use estrenwind_tests::library::ExplainAnswer;
use estrenwind_tests::patterns::Random;
use estrenwind_tests::recipes::comparison::check;
use estrenwind_tests::recipes::reasons::{Facts, Place, FACTS, PLACES};
use estrenwind_tests::recipes::{Call, ExplainCall};
use estrenwind_tests::reference::recipe::Way;
use std::collections::{BTreeMap, BTreeSet};

/// Recipes for a set of facts at a place, every tenth by the authority.
const ROUNDS: u64 = 120;

/// Explains a recipe turned down for these facts, and gives the code.
fn explained(random: &mut Random, way: Way, facts: &Facts, place: Place, same: bool) -> u64 {
    let (draft, step) = random.turned_down(facts, place, same);
    let code = facts.codes[0];
    let line = draft.lines[step];
    let is_of_b = [0x01, 0x10, 0x11].contains(&code);
    let operand = if is_of_b { line.b } else { line.a };
    let call = draft.explain_call();
    let answer = check(way, &call).answer;
    let expected = ExplainAnswer {
        step: step as u64,
        operand: operand.into(),
        reason: code.into(),
        ..ExplainAnswer::PASSED
    };
    assert_eq!(answer, expected, "{facts:x?}\n{call}");
    answer.reason
}

/// At the first step that there can be, at some, and at the last of 128.
#[test]
fn of_several_facts_the_first_is_given() {
    let mut random = Random::new(0xc0);
    let mut counts = BTreeMap::new();
    for facts in &FACTS {
        for place in PLACES {
            for round in 0..ROUNDS {
                let way = if round % 10 == 0 {
                    Way::Exact
                } else {
                    Way::Short
                };
                let code = explained(&mut random, way, facts, place, false);
                *counts.entry(code).or_insert(0u64) += 1;
            }
        }
    }
    println!("{counts:?}");
    let codes: Vec<u64> = counts.keys().copied().collect();
    assert_eq!(codes, ExplainCall::REASONS);
    assert!(counts.values().all(|&count| count >= ROUNDS), "{counts:?}");
}

/// "The operand's step" is that step, whichever field is to blame.
#[test]
fn where_a_and_b_are_the_same_step() {
    let mut random = Random::new(0xc1);
    for facts in FACTS.iter().filter(|facts| facts.of_one_step) {
        for place in PLACES {
            for _ in 0..ROUNDS {
                explained(&mut random, Way::Short, facts, place, true);
            }
        }
    }
}

/// Every pair of facts of one opcode is among the sets above, but for those that exclude each other: an
/// infinite end is not finite and too large, and no answer of one overflows. Of each pair there is a set
/// that the first of the two begins, so that the other order would show.
#[test]
fn every_pair_is_tried() {
    let mut pairs = BTreeSet::new();
    for facts in &FACTS {
        let (first, others) = facts.codes.split_first().expect("a fact");
        for second in others {
            pairs.insert((facts.opcode, *first, *second));
        }
    }
    let mut expected = BTreeSet::new();
    for (opcode, codes) in [
        (0x18, 0x04..=0x05),
        (0x22, 0x01..=0x03),
        (0x23, 0x08..=0x0b),
        (0x24, 0x01..=0x03),
        (0x30, 0x06..=0x07),
        (0x31, 0x06..=0x07),
        (0x32, 0x0c..=0x0d),
        (0x40, 0x0e..=0x13),
        (0x41, 0x0e..=0x13),
        (0x42, 0x0e..=0x13u8),
    ] {
        for first in codes.clone() {
            for second in first + 1..=*codes.end() {
                expected.insert((opcode, first, second));
            }
        }
    }
    assert!(expected.remove(&(0x23, 0x08, 0x0a)));
    assert!(expected.remove(&(0x23, 0x09, 0x0b)));
    for (opcode, low, high) in [
        (0x40, [0x0e, 0x10], [0x0f, 0x11]),
        (0x41, [0x0e, 0x11], [0x0f, 0x10]),
    ] {
        for infinite in low {
            assert!(expected.remove(&(opcode, infinite, 0x12)));
        }
        for infinite in high {
            assert!(expected.remove(&(opcode, infinite, 0x13)));
        }
    }
    for infinite in 0x0e..=0x11 {
        for overflow in [0x12, 0x13] {
            assert!(expected.remove(&(0x42, infinite, overflow)));
        }
    }
    assert_eq!(pairs, expected);
}
