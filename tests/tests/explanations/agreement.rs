//! Hundreds of thousands of explanations, of recipes that pass and of refused ones, from seeds.

use estrenwind_tests::patterns::Random;
use estrenwind_tests::recipes::growing::{grow, grow_sheet};
use estrenwind_tests::recipes::reasons::{FACTS, PLACES};
use estrenwind_tests::recipes::walks::agreement::{compare, faults};
use estrenwind_tests::recipes::ExplainCall;
use estrenwind_tests::reference::recipe::Way;

/// Seeds that a test goes through, on all cores; each gives `CALLS` calls.
const SEEDS: u64 = 760;
const EXACT_SEEDS: u64 = 36;
const CALLS: u64 = 453;

/// The calls of a seed: recipes that pass, recipes of a run, which may or may not, every fault,
/// every pair of faults, and recipes that are turned down for every set of facts, as they are and
/// with another digit somewhere.
pub fn calls(seed: u64, visit: &mut dyn FnMut(ExplainCall)) {
    let mut random = Random::new(0xe891_0000 + seed);
    let random = &mut random;
    for _ in 0..19 {
        for grow in [grow, grow_sheet] {
            let plan = random.plan();
            let (draft, _) = grow(random, &plan);
            visit(draft.explain_call());
        }
    }
    faults(random, visit);
    for facts in &FACTS {
        for same in [false, true] {
            if same && !facts.of_one_step {
                continue;
            }
            let place = PLACES[random.below(3) as usize];
            let mut call = random.turned_down(facts, place, same).0.explain_call();
            visit(call.clone());
            another_digit(random, &mut call.text);
            visit(call);
        }
    }
}

/// Changes one digit, of an opcode or an operand in half of the cases. It may be the same digit.
fn another_digit(random: &mut Random, text: &mut [u8]) {
    let line = random.below(text.len() as u64 / 39);
    let column = match random.below(2) {
        0 => random.below(6),
        _ => random.below(38),
    };
    text[(39 * line + column) as usize] = b"0123456789abcdef"[random.below(16) as usize];
}

#[test]
fn on_hundreds_of_thousands_of_calls_by_the_short_form() {
    let counts = compare(Way::Short, 0..SEEDS, calls);
    assert_eq!(counts.calls, SEEDS * CALLS);
    counts.expect_enough::<ExplainCall>();
}

#[test]
fn on_sixteen_thousand_calls_by_the_authority() {
    let counts = compare(Way::Exact, SEEDS..SEEDS + EXACT_SEEDS, calls);
    assert_eq!(counts.calls, EXACT_SEEDS * CALLS);
}
