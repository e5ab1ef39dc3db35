//! Texts as bytes: every byte at every place, every opcode with every operand, every length, noise.

use estrenwind_tests::patterns::Random;
use estrenwind_tests::recipes::comparison::check;
use estrenwind_tests::recipes::growing::{grow_sheet, Plan};
use estrenwind_tests::recipes::walks::bytes;
use estrenwind_tests::recipes::{Call, Line, SheetCall};
use estrenwind_tests::reference::recipe::{sheet, Way};

#[test]
fn every_byte_at_every_place_of_a_text() {
    bytes::every_byte_at_every_place(Way::Short, SheetCall::text_mut);
}

#[test]
fn every_opcode_with_every_operand() {
    bytes::every_opcode_with_every_operand::<SheetCall>();
}

/// Every operand of a step at the end of the longest recipe.
#[test]
fn the_last_of_128_steps_on_every_other() {
    let plan = Plan {
        steps: 127,
        inputs: (0..127).step_by(8).collect(),
        chain: false,
        ordinary: true,
        refusing: vec![],
    };
    let (mut draft, _) = grow_sheet(&mut Random::new(0x62), &plan);
    draft.lines.push(Line::default());
    let mut passed = 0;
    for operand in 0..=128 {
        for opcode in [0x10, 0x16, 0x18, 0x32] {
            draft.lines[127] = Line::step(opcode, operand, 0);
            passed += (check(Way::Short, &draft.sheet_call()).answer.refusal == 0) as u64;
        }
        for opcode in [0x20, 0x23, 0x24, 0x30, 0x31, 0x40, 0x41, 0x42] {
            draft.lines[127] = Line::step(opcode, 0, operand);
            check(Way::Short, &draft.sheet_call());
            draft.lines[127] = Line::step(opcode, operand, 3);
            check(Way::Short, &draft.sheet_call());
        }
    }
    assert!(passed > 200, "{passed}");
}

#[test]
fn texts_of_every_length() {
    let plan = Plan {
        steps: 128,
        inputs: vec![0],
        chain: true,
        ordinary: true,
        refusing: vec![],
    };
    let (draft, _) = grow_sheet(&mut Random::new(0x60), &plan);
    let whole = draft.sheet_call();
    let mut spare = whole.clone();
    spare.lent += 200;
    bytes::texts_of_every_length(&spare, whole.text.len() + 100);
    for times in [2, 500, 1 << 12] {
        let (text, lent) = (whole.text.repeat(times), whole.lent);
        let outcome = check(Way::Short, &SheetCall { text, lent });
        assert_eq!(outcome.answer.refusal, 10);
    }
}

/// Bytes of any value, and lines of nothing but digits.
#[test]
fn noise() {
    let mut random = Random::new(0x61);
    for round in 0..100_000 {
        let text = bytes::noise(&mut random, round);
        let lent = random.below(6 * sheet::LINE as u64) as usize;
        check(Way::Short, &SheetCall { text, lent });
    }
}
