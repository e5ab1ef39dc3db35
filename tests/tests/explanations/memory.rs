//! Slices without a byte, and what a call leaves. That it leaves the text as it was, every
//! comparison looks at.

use estrenwind_tests::library::{ew_explain, ExplainAnswer};
use estrenwind_tests::recipes::comparison::check;
use estrenwind_tests::recipes::walks::memory;
use estrenwind_tests::recipes::ExplainCall;
use estrenwind_tests::reference::recipe::{Refusal, Way};
use std::ptr;

/// C's way to pass nothing is a null pointer and length 0.
#[test]
fn nothing_may_be_a_null_pointer() {
    let constant = b"040000000000000000002a0000000000000000\n";
    // SAFETY: the pointer is null with length 0, or that of a slice.
    unsafe {
        let refused = ExplainAnswer::from(Refusal::whole_call(10));
        assert_eq!(ew_explain(ptr::null(), 0), refused);
        assert_eq!(ew_explain(constant.as_ptr(), 0), refused);
        assert_eq!(ew_explain(constant.as_ptr(), 38), refused);
        assert_eq!(ew_explain(constant.as_ptr(), 39), ExplainAnswer::PASSED);
    }
}

/// Rust's way is a slice whose pointer isn't null.
#[test]
fn nothing_may_be_an_empty_slice() {
    check(Way::Exact, &ExplainCall { text: vec![] });
}

#[test]
fn a_step_refused_last_of_all_leaves_the_text() {
    memory::a_step_refused_last_of_all_leaves_nothing::<ExplainCall>(0xb0);
}

#[test]
fn an_explanation_keeps_nothing_from_the_one_before() {
    memory::nothing_is_kept_from_the_call_before::<ExplainCall>(0xb1);
}
