//! Hundreds of thousands of sheets, passed and refused, from seeds.

use estrenwind_tests::patterns::Random;
use estrenwind_tests::recipes::growing::{grow, grow_sheet};
use estrenwind_tests::recipes::walks::agreement::{compare, faults};
use estrenwind_tests::recipes::{Draft, SheetCall};
use estrenwind_tests::reference::recipe::{sheet, Way};

/// Seeds that a test goes through, on all cores; each gives `CALLS` calls.
const SEEDS: u64 = 1_600;
const EXACT_SEEDS: u64 = 80;
const CALLS: u64 = 206;

/// The calls of a seed: recipes that pass, recipes of a run, which may or may not, every fault, and
/// every pair of faults.
fn calls(seed: u64, visit: &mut dyn FnMut(SheetCall)) {
    let mut random = Random::new(0x5ee7_0000 + seed);
    let random = &mut random;
    for _ in 0..19 {
        for grow in [grow, grow_sheet] {
            let plan = random.plan();
            let (draft, _) = grow(random, &plan);
            visit(longer(random, &draft));
        }
    }
    faults(random, visit);
}

/// The recipe's sheet, over memory that is a line longer at times.
fn longer(random: &mut Random, draft: &Draft) -> SheetCall {
    let mut call = draft.sheet_call();
    call.lent += [0, 0, 1, sheet::LINE][random.below(4) as usize];
    call
}

#[test]
fn on_hundreds_of_thousands_of_calls_by_the_short_form() {
    let counts = compare(Way::Short, 0..SEEDS, calls);
    assert_eq!(counts.calls, SEEDS * CALLS);
    counts.expect_enough::<SheetCall>();
}

#[test]
fn on_sixteen_thousand_calls_by_the_authority() {
    let counts = compare(Way::Exact, SEEDS..SEEDS + EXACT_SEEDS, calls);
    assert_eq!(counts.calls, EXACT_SEEDS * CALLS);
}
