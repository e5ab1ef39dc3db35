//! Answers read off docs/FORMATS.md by hand: its example, and each refusal.

use estrenwind_tests::library::LinesAnswer;
use estrenwind_tests::recipes::comparison::check;
use estrenwind_tests::recipes::{Call, LinesCall};
use estrenwind_tests::reference::recipe::Way;

/// "One line per step": an input from -2.5 to 7.25, its floor, and that as a whole number.
const EXAMPLE: &str = "\
010000c004000000000000401d000000000000
10000000000000000000000000000000000000
18010000000000000000000000000000000000
";

/// The answers to all of these lines; stops where not all are read.
#[track_caller]
fn answers(text: &str, lines: &str) -> String {
    let call = LinesCall {
        text: text.into(),
        lines: lines.into(),
        lent: 19 * (lines.len() + 1),
    };
    let outcome = check(Way::Exact, &call);
    let (refusal, place, read) = (
        outcome.answer.refusal,
        outcome.answer.place,
        lines.len() as u64,
    );
    assert_eq!(
        (refusal, place, outcome.answer.read),
        (0, 0, read),
        "{call}"
    );
    let written = outcome.answer.written as usize;
    String::from_utf8(outcome.memory[LinesCall::BEFORE..][..written].to_vec()).unwrap()
}

/// The refusal and place of the call, over so many bytes of memory.
#[track_caller]
fn refused(text: &str, lines: &str, lent: usize) -> (u64, u64) {
    let call = LinesCall {
        text: text.into(),
        lines: lines.into(),
        lent,
    };
    let outcome = check(Way::Exact, &call);
    let LinesAnswer { refusal, place, .. } = outcome.answer;
    assert_eq!(
        (outcome.answer.read, outcome.answer.written),
        (0, 0),
        "{call}"
    );
    assert_eq!(outcome.memory, call.filled(), "{call}");
    (refusal, place)
}

#[test]
fn the_example() {
    let frames = "bfe0000000000000\n401e000000000000\n";
    assert_eq!(answers(EXAMPLE, frames), "02ffffffffffffffff\nff2000\n");
}

#[test]
#[rustfmt::skip]
fn lines_of_the_example() {
    for (lines, expected) in [
        ("", ""),
        ("\n", "ff1e00\n"),
        ("\n\n\n", "ff1e00\nff1e00\nff1e00\n"),
        ("c004000000000000\n", "02fffffffffffffffd\n"),                                // the low end: -3
        ("401d000000000000\n", "020000000000000007\n"),                                // the high end
        ("c004000000000001\n401d000000000000\n", "ff2000\n020000000000000007\n"),      // a refused frame does not stop the next
        ("7ff8000000000000\n", "ff2000\n"),
        ("8000000000000000\n", "020000000000000000\n"),
        ("bfe000000000000\n", "ff1e00\n"),                                             // 15 digits
        ("bfe00000000000000\n", "ff1e00\n"),                                           // 17
        ("bfe0000000000000\r\n", "ff1e00\n"),                                          // CR LF
        (" bfe000000000000\n", "ff1f00\n"),
        ("BFE0000000000000\n", "ff1f00\n"),
        ("bfe000000000000\r\n", "ff1f00\n"),
        ("0xbfe00000000000\n", "ff1f00\n"),
        ("bfe0000000000000\n\nbfe0000000000000\n", "02ffffffffffffffff\nff1e00\n02ffffffffffffffff\n"),
        (&format!("{}\n0000000000000000\n", "0".repeat(255)), "ff1e00\n020000000000000000\n"),
        (&format!("{}\n0000000000000000\n", "0".repeat(256)), "ff1e00\n020000000000000000\n"),
        (&format!("{}\n0000000000000000\n", "0".repeat(257)), "ff1e00\n020000000000000000\n"),
        (&format!("{}\n0000000000000000\n", "z".repeat(5000)), "ff1e00\n020000000000000000\n"),
    ] {
        assert_eq!(answers(EXAMPLE, lines), expected, "{lines}");
    }
}

/// Sixteen inputs make a frame of 256 bytes, the longest. A byte more and it is refused with 30.
#[test]
fn the_longest_frame() {
    let text = format!("0200008000000000000000{:016x}\n", i64::MAX).repeat(16);
    let frame = format!("{:0>240}{:016x}", "", 0xfedc_ba98_7654_3210u64);
    assert_eq!(
        answers(&text, &format!("{frame}\n")),
        "02fedcba9876543210\n"
    );
    let three = format!("{frame}0\n{frame}\n{frame}\r\n");
    assert_eq!(
        answers(&text, &three),
        "ff1e00\n02fedcba9876543210\nff1e00\n"
    );
    let wrong = format!("{}g\n", &frame[..255]);
    assert_eq!(answers(&text, &wrong), "ff1f00\n");
    let short = format!("{}\n{frame}\n", &frame[..255]);
    assert_eq!(answers(&text, &short), "ff1e00\n02fedcba9876543210\n");
}

/// "A recipe without inputs has empty lines as its frames."
#[test]
fn a_recipe_without_inputs() {
    let text = "030000bff00000000000000000000000000000\n";
    let answer = "01bff0000000000000\n";
    assert_eq!(answers(text, "\n\n"), answer.repeat(2));
    assert_eq!(
        answers(text, "\n0\n\r\n\n"),
        format!("{answer}ff1e00\nff1e00\n{answer}")
    );
}

/// The refusals that a frame is answered with: 30 to 32 stand above, and 32 is at the step.
#[test]
fn refusals_of_frames() {
    let any = "010000fff00000000000007ff0000000000000\n";
    let whole = format!("0200008000000000000000{:016x}\n", i64::MAX);
    // The remainder of an input by another, and a frame after each that is answered.
    let remainder = format!("{any}{any}22000100000000000000000000000000000000\n");
    let one = "3ff0000000000000";
    assert_eq!(
        answers(
            &remainder,
            &format!("{one}0000000000000000\n{one}{one}\n7ff0000000000000{one}\n{one}{one}\n")
        ),
        "ff1402\n010000000000000000\nff1402\n010000000000000000\n"
    );
    assert_eq!(
        answers(&remainder, &format!("{one}7ff8000000000000\n")),
        "ff2001\n"
    );
    // lround of 2^63, and of -2^63.
    let lround = format!("{any}18000000000000000000000000000000000000\n");
    let lines = "43e0000000000000\nc3e0000000000000\n";
    assert_eq!(answers(&lround, lines), "ff1501\n028000000000000000\n");
    // 2^53 + 1 and 2^53 as doubles.
    let double = format!("{whole}32000000000000000000000000000000000000\n");
    let lines = "0020000000000001\n0020000000000000\n";
    assert_eq!(answers(&double, lines), "ff1601\n014340000000000000\n");
    // Refused at the last of 128 steps.
    let floor = "10000000000000000000000000000000000000\n";
    let late = format!(
        "{any}{}18000000000000000000000000000000000000\n",
        floor.repeat(126)
    );
    assert_eq!(answers(&late, "7ff0000000000000\n"), "ff157f\n");
}

/// Each refusal of a text, whatever the lines are; then 40.
#[test]
#[rustfmt::skip]
fn refusals_of_calls() {
    let input = "0200000000000000000000000000000000002a\n";
    for (text, expected) in [
        ("", (10, 0)),
        (&EXAMPLE[..116], (10, 0)),
        (&format!("{EXAMPLE}\n"), (10, 0)),
        (&EXAMPLE.replace('\n', "\r\n"), (10, 0)),
        (&input.repeat(129), (10, 0)),
        (&EXAMPLE.replace("c004", "C004"), (11, 0)),
        (&EXAMPLE.replace("\n18", " 18"), (11, 1)),
        (&EXAMPLE.replace("\n18", "\n19"), (12, 2)),
        (&EXAMPLE.replace("\n1801", "\n180101"), (10, 0)),
        (&EXAMPLE.replace("\n180100", "\n180101"), (13, 2)),
        (&EXAMPLE.replace("\n1801", "\n1802"), (14, 2)),
        (&format!("{EXAMPLE}10020000000000000000000000000000000000\n"), (15, 3)),
        (&EXAMPLE.replace("401d", "7ff8"), (16, 0)),
        (&EXAMPLE.replace("c004", "4020"), (16, 0)),
        (&input.repeat(17), (17, 16)),
    ] {
        for lines in ["", "\n", "bfe0000000000000\n", "z\n\n\n"] {
            for lent in [0, 18, 19, 500] {
                assert_eq!(refused(text, lines, lent), expected, "{text}{lines}");
            }
        }
    }
    for lines in ["", "\n", "bfe0000000000000\n", "bfe0000000000000", "z\n\n\n"] {
        for lent in 0..19 {
            assert_eq!(refused(EXAMPLE, lines, lent), (40, 0), "{lines}");
        }
    }
}

/// Memory that ends: read, written, and what stands there.
#[test]
fn as_far_as_the_memory_goes() {
    let lines = "bfe0000000000000\n401e000000000000\n401d000000000000\n";
    for (lent, read, answers) in [
        (19, 17, "02ffffffffffffffff\n"),
        (25, 17, "02ffffffffffffffff\n"),
        // A short answer would fit from 26 on, but a long one might be due.
        (26, 17, "02ffffffffffffffff\n"),
        (37, 17, "02ffffffffffffffff\n"),
        (38, 34, "02ffffffffffffffff\nff2000\n"),
        (44, 34, "02ffffffffffffffff\nff2000\n"),
        (45, 51, "02ffffffffffffffff\nff2000\n020000000000000007\n"),
        (99, 51, "02ffffffffffffffff\nff2000\n020000000000000007\n"),
    ] {
        let call = LinesCall {
            text: EXAMPLE.into(),
            lines: lines.into(),
            lent,
        };
        let outcome = check(Way::Exact, &call);
        let answer = LinesAnswer {
            refusal: 0,
            place: 0,
            read,
            written: answers.len() as u64,
        };
        let mut memory = call.filled();
        memory[LinesCall::BEFORE..][..answers.len()].copy_from_slice(answers.as_bytes());
        assert_eq!(outcome.answer, answer, "{lent}");
        assert_eq!(outcome.memory, memory, "{lent}");
    }
}

/// "A line counts where its line feed is there."
#[test]
fn a_last_line_without_its_line_feed() {
    let lines = "bfe0000000000000\n401d000000000000";
    for length in 0..=lines.len() {
        let call = LinesCall {
            text: EXAMPLE.into(),
            lines: lines[..length].into(),
            lent: 100,
        };
        let answer = check(Way::Exact, &call).answer;
        let expected = if length < 17 { (0, 0) } else { (17, 19) };
        assert_eq!((answer.read, answer.written), expected, "{length}");
    }
}
