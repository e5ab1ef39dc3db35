//! The lent memory, and slices without a byte.

use estrenwind_tests::library::{ew_run, RunAnswer};
use estrenwind_tests::patterns::Random;
use estrenwind_tests::recipes::comparison::check;
use estrenwind_tests::recipes::growing::grow;
use estrenwind_tests::recipes::walks::memory;
use estrenwind_tests::recipes::RunCall;
use estrenwind_tests::reference::recipe::{Kind, Way};
use std::ptr;

/// None, too little by one, just enough, more, much more: the rest keeps what it had.
#[test]
fn memory_of_every_length() {
    let mut random = Random::new(21);
    for _ in 0..200 {
        let plan = random.plan();
        let (draft, _) = grow(&mut random, &plan);
        let lengths = (0..plan.steps + 4).chain([1000]);
        memory::of_lengths::<RunCall>(&draft, plan.steps, lengths);
    }
}

#[test]
fn a_step_refused_last_of_all_leaves_no_word() {
    memory::a_step_refused_last_of_all_leaves_nothing::<RunCall>(22);
}

/// C's way to pass nothing is a null pointer and length 0.
#[test]
fn nothing_may_be_a_null_pointer() {
    let constant = b"040000000000000000002a0000000000000000\n";
    let input = b"020000000000000000002a000000000000002a\n";
    let answer = |refusal, kind, word| RunAnswer {
        refusal,
        place: 0,
        kind,
        word,
    };
    let none = ptr::null();
    let nowhere = ptr::null_mut();
    let mut word = 7;
    // SAFETY: every pointer is null with length 0, or that of a slice or a word.
    unsafe {
        let refused = ew_run(none, 0, none, 0, nowhere, 0);
        assert_eq!(refused, answer(10, 0, 0));
        let refused = ew_run(constant.as_ptr(), 39, none, 0, nowhere, 0);
        assert_eq!(refused, answer(40, 0, 0));
        let refused = ew_run(none, 0, none, 0, &mut word, 1);
        assert_eq!((refused, word), (answer(10, 0, 0), 7));
        let refused = ew_run(input.as_ptr(), 39, none, 0, &mut word, 1);
        assert_eq!((refused, word), (answer(30, 0, 0), 7));
        let completed = ew_run(constant.as_ptr(), 39, none, 0, &mut word, 1);
        assert_eq!((completed, word), (answer(0, Kind::Whole as u64, 42), 42));
    }
}

/// Rust's way is a slice whose pointer isn't null.
#[test]
fn nothing_may_be_an_empty_slice() {
    let constant = b"040000000000000000002a0000000000000000\n";
    for text in [&b""[..], constant] {
        for frame in [&b""[..], b"0"] {
            for lent in [0, 1] {
                check(
                    Way::Exact,
                    &RunCall {
                        text: text.to_vec(),
                        frame: frame.to_vec(),
                        lent,
                    },
                );
            }
        }
    }
}

#[test]
fn a_run_keeps_nothing_from_the_one_before() {
    memory::nothing_is_kept_from_the_call_before::<RunCall>(23);
}
