//! Texts as bytes: every byte at every place, every opcode with every operand, every length, noise.

use estrenwind_tests::patterns::Random;
use estrenwind_tests::recipes::comparison::check;
use estrenwind_tests::recipes::growing::{grow_sheet, Plan};
use estrenwind_tests::recipes::walks::bytes;
use estrenwind_tests::recipes::{Call, ExplainCall, Line};
use estrenwind_tests::reference::recipe::Way;

#[test]
fn every_byte_at_every_place_of_a_text() {
    bytes::every_byte_at_every_place(Way::Short, ExplainCall::text_mut);
}

#[test]
fn every_opcode_with_every_operand() {
    bytes::every_opcode_with_every_operand::<ExplainCall>();
}

/// Every operand of a step at the end of the longest recipe: for some it is refused, for some not.
#[test]
fn the_last_of_128_steps_on_every_other() {
    let plan = Plan {
        steps: 127,
        inputs: (0..127).step_by(8).collect(),
        chain: false,
        ordinary: true,
        refusing: vec![],
    };
    let (mut draft, _) = grow_sheet(&mut Random::new(0x92), &plan);
    draft.lines.push(Line::default());
    let (mut passed, mut explained) = (0, 0);
    for operand in 0..=128 {
        for (opcode, a, b) in [
            (0x18, operand, 0),
            (0x22, 0, operand),
            (0x22, operand, 0),
            (0x22, operand, operand),
            (0x23, 0, operand),
            (0x23, operand, 3),
            (0x24, 0, operand),
            (0x24, operand, 0),
            (0x24, operand, operand),
            (0x40, 0, operand),
            (0x40, operand, 0),
            (0x41, 0, operand),
            (0x42, operand, operand),
            (0x30, operand, operand),
            (0x31, 0, operand),
            (0x32, operand, 0),
        ] {
            draft.lines[127] = Line::step(opcode, a, b);
            let answer = check(Way::Short, &draft.explain_call()).answer;
            passed += (answer.refusal == 0 && answer.reason == 0) as u64;
            explained += (answer.reason != 0) as u64;
        }
    }
    assert!(passed > 100 && explained > 100, "{passed} {explained}");
}

#[test]
fn texts_of_every_length() {
    let plan = Plan {
        steps: 128,
        inputs: vec![0],
        chain: true,
        ordinary: true,
        refusing: vec![],
    };
    let (draft, _) = grow_sheet(&mut Random::new(0x90), &plan);
    let whole = draft.explain_call();
    bytes::texts_of_every_length(&whole, whole.text.len() + 100);
    for times in [2, 500, 1 << 12] {
        let text = whole.text.repeat(times);
        let outcome = check(Way::Short, &ExplainCall { text });
        assert_eq!(outcome.answer.refusal, 10);
    }
}

/// Bytes of any value, and lines of nothing but digits.
#[test]
fn noise() {
    let mut random = Random::new(0x91);
    for round in 0..100_000 {
        let text = bytes::noise(&mut random, round);
        check(Way::Short, &ExplainCall { text });
    }
}
