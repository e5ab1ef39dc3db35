//! The lent memory, and slices without a byte.

use estrenwind_tests::library::{ew_run_lines, LinesAnswer};
use estrenwind_tests::patterns::Random;
use estrenwind_tests::recipes::comparison::check;
use estrenwind_tests::recipes::faults::damaged;
use estrenwind_tests::recipes::growing::grow;
use estrenwind_tests::recipes::walks::memory;
use estrenwind_tests::recipes::{Call, LinesCall};
use estrenwind_tests::reference::recipe::Way;
use std::ptr;

const CONSTANT: &[u8] = b"040000000000000000002a0000000000000000\n";
const INPUT: &[u8] = b"020000000000000000002a000000000000002a\n";

/// One line: none, too little by one, just enough, more, much more.
#[test]
fn memory_of_every_length_for_one_line() {
    let mut random = Random::new(40);
    for _ in 0..200 {
        let plan = random.plan();
        let (draft, _) = grow(&mut random, &plan);
        let lengths = (0..60).chain([1000]);
        memory::of_lengths::<LinesCall>(&draft, 19, lengths);
    }
}

/// Long answers and short ones in every order of eight, over memory of every length: a line is
/// answered where 19 bytes are left behind the answers before it, and a short answer needs as many.
#[test]
fn memory_of_every_length_for_every_mix() {
    for mix in 0..256 {
        let is_long = |place: usize| mix >> place & 1 == 1;
        let lines: Vec<u8> = (0..8)
            .flat_map(|place| if is_long(place) { "\n" } else { "0\n" }.bytes())
            .collect();
        let ends = |sizes: [usize; 2]| {
            let size = move |place: usize| sizes[is_long(place) as usize];
            move |count: usize| (0..count).map(size).sum::<usize>()
        };
        let (read, written) = (ends([2, 1]), ends([7, 19]));
        for lent in 0..=8 * 19 + 20 {
            let call = LinesCall {
                text: CONSTANT.to_vec(),
                lines: lines.clone(),
                lent,
            };
            let answer = check(Way::Short, &call).answer;
            let count = (0..8).filter(|&place| written(place) + 19 <= lent).count();
            let refusal = if lent < 19 { 40 } else { 0 };
            let expected = LinesAnswer {
                refusal,
                place: 0,
                read: read(count) as u64,
                written: written(count) as u64,
            };
            assert_eq!(answer, expected, "{mix:08b}, {lent} bytes lent");
        }
    }
}

/// Long answers alone, and short ones alone, by the number that fits.
#[test]
fn as_many_as_fit() {
    for lent in 19..=400 {
        for (line, answer, fit) in [
            ("\n", "02000000000000002a\n", lent / 19),
            ("0\n", "ff1e00\n", (lent - 19) / 7 + 1),
        ] {
            let call = LinesCall {
                text: CONSTANT.to_vec(),
                lines: line.repeat(70).into(),
                lent,
            };
            let outcome = check(Way::Short, &call);
            let mut expected = call.filled();
            let answers = answer.repeat(fit);
            expected[LinesCall::BEFORE..][..answers.len()].copy_from_slice(answers.as_bytes());
            assert_eq!(outcome.memory, expected, "{lent}");
            assert_eq!(outcome.answer.read as usize, line.len() * fit, "{lent}");
        }
    }
}

#[test]
fn a_refused_call_leaves_no_byte() {
    let mut random = Random::new(41);
    for &fault in LinesCall::REFUSALS {
        let mut met = 0;
        for _ in 0..300 {
            let (mut call, refusals) = damaged::<LinesCall>(&mut random, &[fault]);
            call.lines = call.lines.repeat(3);
            let outcome = check(Way::Short, &call);
            if let [refusal] = refusals[..] {
                assert_eq!(outcome.answer, LinesAnswer::from(refusal));
                assert_eq!(outcome.memory, call.filled());
                met += 1;
            }
        }
        assert!(met > 100, "{fault}: {met}");
    }
}

/// C's way to pass nothing is a null pointer and length 0.
#[test]
fn nothing_may_be_a_null_pointer() {
    let answer = |refusal, read, written| LinesAnswer {
        refusal,
        place: 0,
        read,
        written,
    };
    let (text, none, line) = (CONSTANT.as_ptr(), ptr::null(), b"\n".as_ptr());
    let nowhere = ptr::null_mut();
    let mut memory = [b'#'; 20];
    let lent = memory.as_mut_ptr();
    // SAFETY: every pointer is null with length 0, or that of as many bytes as the length says.
    unsafe {
        for (lines, length) in [(none, 0), (line, 1)] {
            let refused = ew_run_lines(none, 0, lines, length, nowhere, 0);
            assert_eq!(refused, answer(10, 0, 0));
            let refused = ew_run_lines(none, 0, lines, length, lent, 20);
            assert_eq!(refused, answer(10, 0, 0));
            let refused = ew_run_lines(text, 39, lines, length, nowhere, 0);
            assert_eq!(refused, answer(40, 0, 0));
        }
        let nothing = ew_run_lines(text, 39, none, 0, lent, 20);
        assert_eq!(nothing, answer(0, 0, 0));
        assert_eq!(memory, [b'#'; 20]);
        let lent = memory.as_mut_ptr();
        let answered = ew_run_lines(text, 39, line, 1, lent, 20);
        assert_eq!(answered, answer(0, 1, 19));
        assert_eq!(memory, *b"02000000000000002a\n#");
    }
}

/// Rust's way is a slice whose pointer isn't null.
#[test]
fn nothing_may_be_an_empty_slice() {
    for text in [&b""[..], CONSTANT, INPUT] {
        for lines in [&b""[..], b"0", b"\n"] {
            for lent in [0, 1, 18, 19, 20] {
                check(
                    Way::Exact,
                    &LinesCall {
                        text: text.to_vec(),
                        lines: lines.to_vec(),
                        lent,
                    },
                );
            }
        }
    }
}

#[test]
fn a_call_keeps_nothing_from_the_one_before() {
    memory::nothing_is_kept_from_the_call_before::<LinesCall>(42);
}
