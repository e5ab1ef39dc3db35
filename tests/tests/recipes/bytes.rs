//! Text and frames as bytes: every byte at every place, every length, and noise.

use estrenwind_tests::patterns::Random;
use estrenwind_tests::recipes::comparison::check;
use estrenwind_tests::recipes::growing::{grow, Plan};
use estrenwind_tests::recipes::walks::bytes::{self, of_every_sort};
use estrenwind_tests::recipes::{Call, RunCall};
use estrenwind_tests::reference::recipe::Way;

#[test]
fn every_byte_at_every_place_of_a_text() {
    bytes::every_byte_at_every_place(Way::Short, RunCall::text_mut);
}

#[test]
fn every_byte_at_every_place_of_a_frame() {
    bytes::every_byte_at_every_place(Way::Exact, |call: &mut RunCall| &mut call.frame);
}

#[test]
fn every_opcode_with_every_operand() {
    bytes::every_opcode_with_every_operand::<RunCall>();
}

#[test]
fn texts_of_every_length() {
    let plan = Plan {
        steps: 128,
        inputs: vec![],
        chain: true,
        ordinary: false,
        refusing: vec![],
    };
    let (draft, _) = grow(&mut Random::new(24), &plan);
    let mut whole = draft.run_call();
    whole.lent = 300;
    bytes::texts_of_every_length(&whole, 2 * whole.text.len() + 1);
}

/// Far beyond the longest text and the longest frame.
#[test]
fn texts_and_frames_of_great_length() {
    let whole = of_every_sort().run_call();
    for times in [16, 500, 1 << 14] {
        let mut long = whole.clone();
        long.text = whole.text.repeat(times);
        assert_eq!(check(Way::Short, &long).answer.refusal, 10);
        let mut long = whole.clone();
        long.frame = whole.frame.repeat(times);
        assert_eq!(check(Way::Short, &long).answer.refusal, 30);
    }
}

#[test]
fn frames_of_every_length() {
    let mut call = of_every_sort().run_call();
    for length in 0..=600 {
        call.frame.resize(length, b'0');
        check(Way::Short, &call);
    }
}

/// Bytes of any value, and lines of nothing but digits.
#[test]
fn noise() {
    let mut random = Random::new(25);
    for round in 0..200_000 {
        let text = bytes::noise(&mut random, round);
        let inputs = random.below(4) as usize;
        let frame = (0..16 * inputs).map(|_| b"0123456789abcdef"[random.below(16) as usize]);
        check(
            Way::Short,
            &RunCall {
                frame: frame.collect(),
                lent: random.below(6) as usize,
                text,
            },
        );
    }
}
