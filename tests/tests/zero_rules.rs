//! What W-202 changed over recipes, and that it changed nothing else: its rule for the two zeros
//! beside document 01's, by which fmin and fmax gave the first of equal operands; and the library,
//! which goes by W-202's, on the same recipes.

use estrenwind_tests::comparison::on_all_cores;
use estrenwind_tests::patterns::Random;
use estrenwind_tests::recipes::comparison::Outcome;
use estrenwind_tests::recipes::faults::{REFUSALS, SHEET_REFUSALS};
use estrenwind_tests::recipes::zeros::{as_elsewhere, of_meeting_zeros, Calls, Counts, Fate, Part};
use estrenwind_tests::recipes::Call;
use estrenwind_tests::reference::recipe::{Way, OPERATIONS};

const PARTS: [Part; 3] = [Part::Word, Part::Low, Part::High];
const FATES: [Fate; 3] = [Fate::ChosenHere, Fate::HandedOn, Fate::Ended];

/// What can become of a zero's sign at a step, and nothing else can: `recipes::zeros` says why.
fn fates(opcode: u8, part: Part) -> &'static [Fate] {
    match (opcode, part) {
        (0x20 | 0x21, _) | (0x42, Part::Low | Part::High) => &FATES,
        (0x40..=0x42, _) => &[Fate::HandedOn, Fate::Ended],
        (0x10..=0x14 | 0x17 | 0x23, _) | (0x15 | 0x22 | 0x24, Part::Word) => &[Fate::HandedOn],
        (0x15 | 0x16 | 0x18 | 0x22 | 0x24, _) => &[Fate::Ended],
        _ => &[],
    }
}

/// Stops where the rules differed in more than they may, or where what they may differ in came up
/// too seldom, for words or for an end.
fn expect(counts: &Counts, least_words: u64, least_ends: u64) {
    println!("{counts}");
    assert!(counts.wrong.is_empty(), "{}", counts.wrong.join("\n\n"));
    for operation in &OPERATIONS {
        let opcode = operation.opcode;
        for part in PARTS {
            for fate in FATES {
                let met = counts.met(opcode, part, fate);
                let least = match part {
                    Part::Word => least_words,
                    Part::Low | Part::High => least_ends,
                };
                let expected = if fates(opcode, part).contains(&fate) {
                    least..=u64::MAX
                } else {
                    0..=0
                };
                assert!(
                    expected.contains(&met),
                    "{opcode:02x}, {part:?}, {fate:?}: {met}"
                );
            }
        }
    }
}

#[test]
fn only_a_zero_s_sign_changes_where_zeros_meet() {
    let counts = of_meeting_zeros();
    expect(&counts, 1_000, 200);
    // A zero of either sign as a divisor.
    for tally in [counts.sheets, counts.runs] {
        assert!(tally.refused[&20] >= 1_000, "{tally}");
    }
}

#[test]
fn only_a_zero_s_sign_changes_in_recipes_as_elsewhere() {
    let counts = as_elsewhere();
    expect(&counts, 100, 5);
    for opcode in [0x20, 0x21] {
        for part in PARTS {
            let met = counts.met(opcode, part, Fate::ChosenHere);
            assert!(met >= 100, "{opcode:02x}, {part:?}: {met}");
        }
    }
    for operation in &OPERATIONS {
        for part in PARTS {
            let compared = counts.compared(operation.opcode, part);
            assert!(compared >= 1_000, "{:02x}, {part:?}", operation.opcode);
        }
    }
    for (tally, refusals) in [
        (counts.runs, &REFUSALS[..]),
        (counts.sheets, &SHEET_REFUSALS),
    ] {
        for refusal in refusals {
            assert!(tally.refused[refusal] >= 500, "refusal {refusal}\n{tally}");
        }
    }
}

fn difference<C: Call>(way: Way, calls: &[C]) -> Option<String> {
    calls.iter().find_map(|call| {
        let expected = Outcome::expected(way, call);
        Outcome::library(call).difference(&expected, call)
    })
}

fn check_library(way: Way, seeds: u64) {
    on_all_cores(
        seeds,
        |(), ()| (),
        |seed, _| {
            let calls = Calls::of_meeting_zeros(&mut Random::new(seed));
            difference(way, &calls.runs)
                .or_else(|| difference(way, &calls.sheets))
                .or_else(|| difference(way, &calls.explanations))
        },
    );
}

#[test]
fn the_library_goes_by_w_202_where_zeros_meet() {
    check_library(Way::Short, 4_000);
    check_library(Way::Exact, 200);
}
