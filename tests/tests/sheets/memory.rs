//! The lent memory, and slices without a byte.

use estrenwind_tests::library::{self, ew_sheet, SheetAnswer};
use estrenwind_tests::patterns::Random;
use estrenwind_tests::recipes::comparison::check;
use estrenwind_tests::recipes::growing::{grow_sheet, Plan};
use estrenwind_tests::recipes::walks::memory;
use estrenwind_tests::recipes::{Draft, Line, SheetCall};
use estrenwind_tests::reference::recipe::{sheet, Kind, Way};
use std::ptr;

/// None, too little by one, just enough, more, much more: the rest keeps what it had.
#[test]
fn memory_of_every_length() {
    let mut random = Random::new(0x70);
    for steps in (1..=9).chain([31, 128]) {
        let plan = Plan {
            steps,
            inputs: vec![0],
            chain: false,
            ordinary: false,
            refusing: vec![],
        };
        let (draft, _) = grow_sheet(&mut random, &plan);
        let needed = sheet::LINE * steps;
        let lengths = (0..needed + 40).chain([10_000]);
        memory::of_lengths::<SheetCall>(&draft, needed, lengths);
    }
}

/// W-203: "Refusal 40 reads the new size." Counted in plain numbers, and without the reference: what
/// was room enough before it, 37 bytes a step, and a byte more a step, are too little.
#[test]
fn room_is_39_bytes_for_each_step() {
    let room = SheetAnswer {
        refusal: 40,
        place: 0,
        steps: 0,
    };
    for steps in 1..=128 {
        let draft = Draft {
            lines: vec![Line::constant(Kind::Whole, 42); steps],
            words: vec![],
        };
        let text = draft.sheet_call().text;
        let line = |step: usize| format!("{step:02x}0201{:016x}{:016x}\n", 42, 42);
        let lines: String = (0..steps).map(line).collect();
        for (lent, is_enough) in [
            (0, false),
            (37 * steps, false),
            (38 * steps, false),
            (39 * steps - 1, false),
            (39 * steps, true),
            (39 * steps + 1, true),
            (41 * steps, true),
        ] {
            let mut memory = vec![b'#'; lent];
            let answer = library::sheet(&text, &mut memory);
            let (expected, written) = match is_enough {
                true => (SheetAnswer::passed(steps), &lines[..]),
                false => (room, ""),
            };
            assert_eq!(answer, expected, "{lent} bytes for {steps} steps");
            let (start, rest) = memory.split_at(written.len());
            assert_eq!(start, written.as_bytes(), "{lent} bytes for {steps} steps");
            assert!(rest.iter().all(|&byte| byte == b'#'), "{lent} for {steps}");
        }
    }
}

#[test]
fn a_step_refused_last_of_all_leaves_no_byte() {
    memory::a_step_refused_last_of_all_leaves_nothing::<SheetCall>(0x71);
}

/// C's way to pass nothing is a null pointer and length 0.
#[test]
fn nothing_may_be_a_null_pointer() {
    let constant = b"040000000000000000002a0000000000000000\n";
    let refused = |refusal| SheetAnswer {
        refusal,
        place: 0,
        steps: 0,
    };
    let mut sheet = [7; 40];
    // SAFETY: every pointer is null with length 0, or that of a slice.
    unsafe {
        let answer = ew_sheet(ptr::null(), 0, ptr::null_mut(), 0);
        assert_eq!(answer, refused(10));
        let answer = ew_sheet(constant.as_ptr(), 39, ptr::null_mut(), 0);
        assert_eq!(answer, refused(40));
        let answer = ew_sheet(ptr::null(), 0, sheet.as_mut_ptr(), 40);
        assert_eq!((answer, sheet), (refused(10), [7; 40]));
        let answer = ew_sheet(constant.as_ptr(), 39, sheet.as_mut_ptr(), 38);
        assert_eq!((answer, sheet), (refused(40), [7; 40]));
        let answer = ew_sheet(constant.as_ptr(), 39, sheet.as_mut_ptr(), 40);
        assert_eq!(answer, SheetAnswer::passed(1));
    }
    assert_eq!(&sheet, b"000201000000000000002a000000000000002a\n\x07");
}

/// Rust's way is a slice whose pointer isn't null.
#[test]
fn nothing_may_be_an_empty_slice() {
    let constant = b"040000000000000000002a0000000000000000\n";
    for text in [&b""[..], constant] {
        for lent in [0, 38, 39] {
            let text = text.to_vec();
            check(Way::Exact, &SheetCall { text, lent });
        }
    }
}

#[test]
fn a_sheet_keeps_nothing_from_the_one_before() {
    memory::nothing_is_kept_from_the_call_before::<SheetCall>(0x72);
}
