//! A million and more calls, valid and damaged, from seeds.

use estrenwind_tests::patterns::Random;
use estrenwind_tests::recipes::growing::grow;
use estrenwind_tests::recipes::walks::agreement::{compare, faults};
use estrenwind_tests::recipes::{frame, Draft, RunCall};
use estrenwind_tests::reference::recipe::Way;

/// Seeds that a test goes through, on all cores; each gives `CALLS` calls.
const SEEDS: u64 = 3_000;
const EXACT_SEEDS: u64 = 110;
const CALLS: u64 = 390;

/// The calls of a seed: recipes with several frames each, every fault, and every pair of faults.
fn calls(seed: u64, visit: &mut dyn FnMut(RunCall)) {
    let mut random = Random::new(0x5eed_0000 + seed);
    let random = &mut random;
    for _ in 0..15 {
        let plan = random.plan();
        let (draft, _) = grow(random, &plan);
        visit(draft.run_call());
        for _ in 0..8 {
            visit(other_frame(random, &draft));
        }
    }
    faults(random, visit);
}

/// The same recipe over a frame of inputs in their ranges, at the ends and in between; one input in
/// sixteen lies outside. Whether the run completes is open.
fn other_frame(random: &mut Random, draft: &Draft) -> RunCall {
    let words: Vec<u64> = draft
        .inputs()
        .into_iter()
        .map(|place| {
            let line = draft.lines[place];
            let (kind, range) = (line.kind().expect("an input"), [line.p, line.q]);
            let outside = (random.below(16) == 0).then(|| random.outside(kind, range));
            outside
                .flatten()
                .unwrap_or_else(|| random.inside(kind, range))
        })
        .collect();
    let mut call = draft.run_call();
    call.frame = frame(&words);
    call.lent += random.below(3) as usize;
    call
}

#[test]
fn on_a_million_calls_by_the_short_form() {
    let counts = compare(Way::Short, 0..SEEDS, calls);
    assert_eq!(counts.calls, SEEDS * CALLS);
    assert!(counts.calls >= 1_000_000, "{} calls", counts.calls);
    counts.expect_enough::<RunCall>();
}

#[test]
fn on_forty_thousand_calls_by_the_authority() {
    let counts = compare(Way::Exact, SEEDS..SEEDS + EXACT_SEEDS, calls);
    assert_eq!(counts.calls, EXACT_SEEDS * CALLS);
}
