//! What document 01 prints, what W-202 says of the zeros in fmin and fmax, and W-204's step 24.

use estrenwind_tests::library::RunAnswer;
use estrenwind_tests::recipes::comparison::check;
use estrenwind_tests::recipes::zeros::BOTH_ORDERS;
use estrenwind_tests::recipes::RunCall;
use estrenwind_tests::reference::recipe::Way;

const EXAMPLE: &str = "\
010000c004000000000000401d000000000000
10000000000000000000000000000000000000
18010000000000000000000000000000000000
";

fn call(text: &str, frame: &str) -> RunCall {
    RunCall {
        text: text.into(),
        frame: frame.into(),
        lent: text.len() / 39,
    }
}

fn completed(kind: u64, word: u64) -> RunAnswer {
    RunAnswer {
        refusal: 0,
        place: 0,
        kind,
        word,
    }
}

fn refused(refusal: u64, place: u64) -> RunAnswer {
    RunAnswer {
        refusal,
        place,
        kind: 0,
        word: 0,
    }
}

#[test]
fn the_example_runs_as_printed() {
    for (frame, answer) in [
        ("bfe0000000000000", completed(2, 0xffffffffffffffff)),
        ("401e000000000000", refused(32, 0)),
        ("c004000000000000", completed(2, -3i64 as u64)), // the low end
        ("401d000000000000", completed(2, 7)),            // the high end
        ("c004000000000001", refused(32, 0)),             // just below
        ("401d000000000001", refused(32, 0)),             // just above
        ("8000000000000000", completed(2, 0)),
        ("7ff8000000000000", refused(32, 0)),
        ("", refused(30, 0)),
        ("bfe000000000000", refused(30, 0)),
        ("bfe00000000000000", refused(30, 0)),
        ("BFE0000000000000", refused(31, 0)),
        ("bfe0000000000000\n", refused(30, 0)),
    ] {
        let outcome = check(Way::Exact, &call(EXAMPLE, frame));
        assert_eq!(outcome.answer, answer, "{frame}");
    }
    let outcome = check(Way::Exact, &call(EXAMPLE, "bfe0000000000000"));
    let words = [0xbfe0000000000000, 0xbff0000000000000, 0xffffffffffffffff];
    assert_eq!(outcome.memory[..3], words);
}

/// Each row breaks one rule of "Turning text down" and keeps to all before it, most of them also
/// break a later one. The answers are read off document 01, not off the reference.
#[test]
#[rustfmt::skip]
fn what_is_turned_down_and_with_which_number() {
    const FULL: &str = "010000fff00000000000007ff0000000000000\n"; // any double
    const WHOLE: &str = "02000080000000000000007fffffffffffffff\n"; // any whole number
    const NEXT: &str = "10000000000000000000000000000000000000\n"; // floor of step 0
    let full16 = FULL.repeat(16);
    let frame16 = "0".repeat(256);
    for (text, frame, answer) in [
        ("", "", refused(10, 0)),
        ("\n", "", refused(10, 0)),
        (&FULL[..38], "", refused(10, 0)),
        (&format!("{FULL}\n"), "", refused(10, 0)),
        (&NEXT.repeat(129), "", refused(10, 0)),
        (&NEXT.repeat(128), "", refused(14, 0)),                                              // floor of itself
        (&format!("{FULL}{}", NEXT.repeat(127)), "bfe0000000000000", completed(1, 0xbff0000000000000)),
        ("0A0000fff00000000000007ff0000000000000\n", "", refused(11, 0)),                      // 11 before 12
        ("010000fff00000000000007ff0000000000000 ", "", refused(11, 0)),
        ("010000fff00000000000007ff000000000000\n\n", "", refused(11, 0)),
        ("00000000000000000000000000000000000000\n", "", refused(12, 0)),
        ("05ff0000000000000000000000000000000000\n", "", refused(12, 0)),                      // 12 before 13, 14
        ("19000000000000000000000000000000000000\n", "", refused(12, 0)),
        ("24000000000000000000000000000000000000\n", "", refused(14, 0)),                      // a step, of itself
        ("25000000000000000000000000000000000000\n", "", refused(12, 0)),
        ("33000000000000000000000000000000000000\n", "", refused(12, 0)),
        ("10ff0000000000000000010000000000000000\n", "", refused(13, 0)),                      // 13 before 14
        ("10000100000000000000000000000000000000\n", "", refused(13, 0)),
        ("0101007ff80000000000000000000000000000\n", "", refused(13, 0)),                      // 13 before 16
        ("0300003ff00000000000003ff0000000000000\n", "", refused(13, 0)),
        (&format!("{WHOLE}{FULL}200002{:032}\n", 0), "", refused(14, 2)),                     // A whole, B itself: 14 before 15
        (&format!("{WHOLE}{FULL}200200{:032}\n", 0), "", refused(14, 2)),
        (&format!("{WHOLE}{FULL}2001ff{:032}\n", 0), "", refused(14, 2)),
        (&format!("{WHOLE}{FULL}200100{:032}\n", 0), "", refused(15, 2)),
        (&format!("{WHOLE}{FULL}230001{:032}\n", 0), "", refused(15, 2)),                     // ldexp with A and B exchanged
        (&format!("{WHOLE}{FULL}230100{:032}\n", 0), &frame16[..32], completed(1, 0)),
        (&format!("{WHOLE}{NEXT}"), "", refused(15, 1)),
        (&format!("{FULL}3200{:034}\n", 0), "", refused(15, 1)),
        ("0100000000000000000000bff0000000000000\n", "", refused(16, 0)),                      // 0 to -1
        ("010000bff0000000000000c000000000000000\n", "", refused(16, 0)),                      // -1 to -2
        ("010000c000000000000000bff0000000000000\n", "bff8000000000000", completed(1, 0xbff8000000000000)), // -2 to -1
        ("01000000000000000000008000000000000000\n", "8000000000000000", completed(1, 1 << 63)), // +0 to -0, equal
        ("01000080000000000000000000000000000000\n", "0000000000000000", completed(1, 0)),
        ("01000000000000000000008000000000000000\n", "0000000000000001", refused(32, 0)),
        ("010000fff00000000000007ff0000000000001\n", "", refused(16, 0)),
        ("010000fff80000000000007ff0000000000000\n", "", refused(16, 0)),
        ("0300007ff00000000000010000000000000000\n", "", refused(16, 0)),
        ("0400007ff00000000000010000000000000000\n", "", completed(2, 0x7ff0000000000001)),
        ("0200000000000000000000ffffffffffffffff\n", "", refused(16, 0)),                      // 0 to -1
        ("020000ffffffffffffffff0000000000000000\n", "ffffffffffffffff", completed(2, u64::MAX)), // -1 to 0
        ("020000ffffffffffffffff0000000000000000\n", "0000000000000001", refused(32, 0)),
        ("020000ffffffffffffffff0000000000000000\n", "fffffffffffffffe", refused(32, 0)),
        ("0200007ff800000000000080000000000000ff\n", "", refused(16, 0)),
        (&full16, &frame16, completed(1, 0)),
        (&format!("{full16}{FULL}"), &frame16, refused(17, 16)),
        (&format!("{full16}0100003ff00000000000000000000000000000\n"), &frame16, refused(16, 16)), // 16 before 17
        (&format!("{full16}{FULL}zz{:036}\n", 0), &frame16, refused(17, 16)),                 // an earlier line before 11
        (&format!("{full16}{NEXT}{WHOLE}"), &frame16, refused(17, 17)),
        (FULL, "", refused(30, 0)),
        (NEXT, "z", refused(14, 0)),
        (FULL, "gggggggggggggggg", refused(31, 0)),
        (FULL, "ggggggggggggggg", refused(30, 0)),                                            // 30 before 31
        (&format!("{FULL}{FULL}"), "7ff80000000000007ff000000000000g", refused(31, 0)),       // 31 before 32
        (&format!("{FULL}{WHOLE}{NEXT}{FULL}"), "000000000000000000000000000000007ff8000000000000", refused(32, 3)), // the input's step
        (&format!("{FULL}220000{:032}\n{FULL}", 0), "00000000000000007ff8000000000000", refused(32, 2)), // 32 before 20
        (&format!("{FULL}220000{:032}\n", 0), "0000000000000000", refused(20, 1)),            // fmod(0, 0)
        (&format!("{FULL}220000{:032}\n", 0), "7ff0000000000000", refused(20, 1)),            // fmod(inf, inf)
        (&format!("{FULL}220000{:032}\n", 0), "bff0000000000000", completed(1, 1 << 63)),     // fmod(-1, -1) = -0
        (&format!("{FULL}1800{:034}\n220000{:032}\n", 0, 0), "7ff0000000000000", refused(21, 1)), // 21 at an earlier step
        (&format!("{FULL}1800{:034}\n", 0), "43dfffffffffffff", completed(2, 0x7ffffffffffffc00)),
        (&format!("{FULL}1800{:034}\n", 0), "43e0000000000000", refused(21, 1)),
        (&format!("{FULL}1800{:034}\n", 0), "c3e0000000000000", completed(2, 1 << 63)),
        (&format!("{WHOLE}300000{:032}\n", 0), "4000000000000000", refused(21, 1)),           // 2^62 + 2^62
        (&format!("{WHOLE}300000{:032}\n", 0), "c000000000000000", completed(2, 1 << 63)),    // -2^62 - 2^62
        (&format!("{WHOLE}{WHOLE}310001{:032}\n", 0), "00000000000000008000000000000000", refused(21, 2)), // 0 - -2^63
        (&format!("{WHOLE}{WHOLE}310001{:032}\n", 0), "ffffffffffffffff8000000000000000", completed(2, i64::MAX as u64)),
        (&format!("{FULL}{WHOLE}230001{:032}\n", 0), "3ff00000000000000000000000000400", refused(21, 2)), // ldexp(1, 1024)
        (&format!("{FULL}{WHOLE}230001{:032}\n", 0), "7ff00000000000000000000000000400", completed(1, 0x7ff0000000000000)), // infinite a
        (&format!("{FULL}{WHOLE}230001{:032}\n", 0), "3ff0000000000000fffffffffffffbcd", completed(1, 0)), // ldexp(1, -1075)
        (&format!("{WHOLE}3200{:034}\n", 0), "0020000000000000", completed(1, 0x4340000000000000)), // 2^53
        (&format!("{WHOLE}3200{:034}\n", 0), "0020000000000001", refused(22, 1)),
        (&format!("{WHOLE}3200{:034}\n", 0), "ffe0000000000000", completed(1, 0xc340000000000000)), // -2^53
        (&format!("{WHOLE}3200{:034}\n", 0), "ffdfffffffffffff", refused(22, 1)),
        (&format!("{WHOLE}3200{:034}\n", 0), "8000000000000000", refused(22, 1)),
    ] {
        let outcome = check(Way::Exact, &call(text, frame));
        assert_eq!(outcome.answer, answer, "{text}{frame}");
    }
}

/// W-202: -0 is below +0 in fmin and fmax, "in whichever order they come". Whether an input lies in
/// its range, and whether a divisor is zero, is still asked of numbers.
#[test]
fn the_zeros_in_fmin_and_fmax() {
    const PLUS: u64 = 0;
    const MINUS: u64 = 1 << 63;
    const ONE: u64 = 0x3ff0000000000000;
    // Both inputs, fmin and fmax of them, and fmin's negation and magnitude.
    for ([x, y], least, greatest, negated, magnitude) in [
        ([PLUS, MINUS], MINUS, PLUS, PLUS, PLUS),
        ([MINUS, PLUS], MINUS, PLUS, PLUS, PLUS),
        ([PLUS, PLUS], PLUS, PLUS, MINUS, PLUS),
        ([MINUS, MINUS], MINUS, MINUS, PLUS, PLUS),
        ([ONE, MINUS], MINUS, ONE, PLUS, PLUS),
        ([PLUS, ONE], PLUS, ONE, MINUS, PLUS),
        ([ONE, ONE], ONE, ONE, ONE | MINUS, ONE),
    ] {
        let frame = format!("{x:016x}{y:016x}");
        let outcome = check(Way::Exact, &call(BOTH_ORDERS, &frame));
        assert_eq!(outcome.answer, completed(1, magnitude), "{frame}");
        let words = [x, y, least, least, greatest, greatest, negated, magnitude];
        assert_eq!(outcome.memory[..8], words, "{frame}");
        let divided = format!("{BOTH_ORDERS}220002{:032}\n", 0);
        let answer = match magnitude {
            PLUS => refused(20, 8),
            _ => completed(1, PLUS),
        };
        let outcome = check(Way::Exact, &call(&divided, &frame));
        assert_eq!(outcome.answer, answer, "{frame}");
    }
}

/// W-204: "Recipe step 24 takes two doubles", and gives x - n·y, n the integer nearest to x/y, halves to
/// even, "a zero result with x's sign". Refusal 20 "on the same terms as fmod".
#[test]
#[rustfmt::skip]
fn the_nearest_remainder() {
    const FULL: &str = "010000fff00000000000007ff0000000000000\n"; // any double
    const WHOLE: &str = "02000080000000000000007fffffffffffffff\n"; // any whole number
    let text = format!("{FULL}{FULL}240001{:032}\n", 0);
    for (x, y, answer) in [
        (7.5,             2.0,           Ok(-0.5)),
        (-7.5,            2.0,           Ok(0.5)),
        (7.5,             -2.0,          Ok(-0.5)),
        (1.0,             2.0,           Ok(1.0)),             // n = 0
        (3.0,             2.0,           Ok(-1.0)),            // n = 2
        (5.0,             2.0,           Ok(1.0)),             // n = 2
        (3f64.next_down(), 2.0,          Ok(1.0 - 2f64.powi(-51))),
        (-540.0,          360.0,         Ok(180.0)),           // n = -2
        (1e16,            3.0,           Ok(1.0)),
        (6.0,             -3.0,          Ok(0.0)),
        (-6.0,            3.0,           Ok(-0.0)),
        (-0.0,            3.0,           Ok(-0.0)),
        (f64::MAX,        f64::INFINITY, Ok(f64::MAX)),
        (-2.5,            f64::NEG_INFINITY, Ok(-2.5)),
        (f64::INFINITY,   1.0,           Err(20)),
        (f64::NEG_INFINITY, f64::INFINITY, Err(20)),
        (1.0,             0.0,           Err(20)),
        (0.0,             -0.0,          Err(20)),
    ] {
        let frame = format!("{:016x}{:016x}", x.to_bits(), y.to_bits());
        let outcome = check(Way::Exact, &call(&text, &frame));
        let answer: Result<f64, u64> = answer;
        let expected = match answer {
            Ok(value) => completed(1, value.to_bits()),
            Err(refusal) => refused(refusal, 2),
        };
        assert_eq!(outcome.answer, expected, "{x:e} {y:e}");
    }
    for (text, frame, answer) in [
        (format!("{FULL}240000{:032}\n", 0), "bff0000000000000", completed(1, 1 << 63)),      // of a step by itself
        (format!("{FULL}240000{:032}\n", 0), "8000000000000000", refused(20, 1)),
        (format!("{FULL}{WHOLE}240001{:032}\n", 0), "", refused(15, 2)),
        (format!("{WHOLE}{FULL}240001{:032}\n", 0), "", refused(15, 2)),
        (format!("{FULL}{FULL}240002{:032}\n", 0), "", refused(14, 2)),
        (format!("{FULL}{FULL}240200{:032}\n", 0), "", refused(14, 2)),
        (format!("{FULL}{FULL}240001{:031}1\n", 0), "", refused(13, 2)),
        (format!("{FULL}{FULL}2400010000000000000001{:016}\n", 0), "", refused(13, 2)),
    ] {
        let outcome = check(Way::Exact, &call(&text, frame));
        assert_eq!(outcome.answer, answer, "{text}{frame}");
    }
}

/// W-208: "Each is the language's own operation, rounded once to nearest, halves to even." "Refusals: 20 for
/// an infinite operand .., then 21 for an infinite result". Each sum is read off by hand; a difference is
/// the sum with the second negated.
#[test]
#[rustfmt::skip]
fn sums_and_differences() {
    let place = f64::EPSILON; // 2^-52, the last place of 1
    let (max, tiny) = (f64::MAX, f64::from_bits(1));
    let normal = f64::MIN_POSITIVE;
    let inf = f64::INFINITY;
    let edge = 2f64.powi(970); // half of the largest number's last place
    for (x, y, answer) in [
        (1.5,              2.25,             Ok(3.75)),
        (0.1,              0.2,              Ok(0.30000000000000004)),
        (-7.5,             2.0,              Ok(-5.5)),
        // Ties: to the even one, below and above.
        (1.0,              place / 2.0,      Ok(1.0)),
        (1.0 + place,      place / 2.0,      Ok(1.0 + 2.0 * place)),
        (1.0,              -place / 4.0,     Ok(1.0)),
        (1.0,              -place * 0.375,   Ok(1.0 - place / 2.0)),
        (1.0 - place / 2.0, place / 4.0,     Ok(1.0)),
        (-1.0,             -place / 2.0,     Ok(-1.0)),
        (-1.0 - place,     -place / 2.0,     Ok(-1.0 - 2.0 * place)),
        // Beside a tie.
        (1.0,              (place / 2.0).next_up(), Ok(1.0 + place)),
        (1.0 + place,      (place / 2.0).next_down(), Ok(1.0 + place)),
        // Of a number far below something is left only at a power of two, and nothing farther on.
        (1.0,              -(place / 4.0).next_up(), Ok(1.0 - place / 2.0)),
        (1.0,              tiny,             Ok(1.0)),
        (1.0,              -tiny,            Ok(1.0)),
        (1e16,             1.0,              Ok(1e16)),
        (1e16,             3.0,              Ok(10000000000000004.0)),
        // Digits cancel.
        (1.0 + place,      -1.0,             Ok(place)),
        (1.0,              -1.0 + place / 2.0, Ok(place / 2.0)),
        (1e300,            -1e300,           Ok(0.0)),
        (-max,             max,              Ok(0.0)),
        // Subnormal numbers, where no sum is rounded.
        (tiny,             tiny,             Ok(2.0 * tiny)),
        (tiny,             -tiny,            Ok(0.0)),
        (normal,           -tiny,            Ok(normal.next_down())),
        (normal.next_down(), tiny,           Ok(normal)),
        (normal * 1.5,     -normal,          Ok(normal / 2.0)),
        // Zeros: +0, but for -0 + -0.
        (0.0,              0.0,              Ok(0.0)),
        (0.0,              -0.0,             Ok(0.0)),
        (-0.0,             0.0,              Ok(0.0)),
        (-0.0,             -0.0,             Ok(-0.0)),
        (-0.0,             tiny,             Ok(tiny)),
        (-tiny,            0.0,              Ok(-tiny)),
        // Overflow's edge.
        (max,              edge,             Err(21)),
        (max,              edge.next_down(), Ok(max)),
        (max,              tiny,             Ok(max)),
        (-max,             -edge,            Err(21)),
        (-max,             -edge.next_down(), Ok(-max)),
        (max,              max,              Err(21)),
        (max.next_down(),  2.0 * edge,       Ok(max)),
        // 20 comes first, whatever the other is.
        (inf,              1.0,              Err(20)),
        (1.0,              -inf,             Err(20)),
        (inf,              inf,              Err(20)),
        (inf,              -inf,             Err(20)),
        (-inf,             max,              Err(20)),
        (0.0,              inf,              Err(20)),
    ] {
        computes(0x40, x, y, answer);
        computes(0x40, y, x, answer);
        computes(0x41, x, -y, answer);
    }
}

/// The product's sign is that of the operands where these are the same, a zero's too.
#[test]
#[rustfmt::skip]
fn products() {
    let place = f64::EPSILON;
    let (max, tiny) = (f64::MAX, f64::from_bits(1));
    let normal = f64::MIN_POSITIVE;
    let inf = f64::INFINITY;
    for (x, y, answer) in [
        (1.5,              -2.25,            Ok(-3.375)),
        (-3.0,             -4.0,             Ok(12.0)),
        (0.1,              0.1,              Ok(0.010000000000000002)),
        // Ties, to the even one.
        (1.5,              1.0 + place,      Ok(1.5 + 2.0 * place)),
        (1.5,              1.0 + 3.0 * place, Ok(1.5 + 4.0 * place)),
        (1.0 + place,      1.0 + place,      Ok(1.0 + 2.0 * place)),
        (1.0 - place / 2.0, 1.0 - place / 2.0, Ok(1.0 - place)),
        // Zeros by the signs.
        (0.0,              5.0,              Ok(0.0)),
        (-0.0,             5.0,              Ok(-0.0)),
        (0.0,              -5.0,             Ok(-0.0)),
        (-0.0,             -5.0,             Ok(0.0)),
        (-0.0,             0.0,              Ok(-0.0)),
        (-0.0,             -0.0,             Ok(0.0)),
        // The smallest numbers: halves of a unit to even.
        (tiny,             0.5,              Ok(0.0)),
        (-tiny,            0.5,              Ok(-0.0)),
        (tiny,             -0.5,             Ok(-0.0)),
        (tiny,             0.5f64.next_up(), Ok(tiny)),
        (3.0 * tiny,       0.5,              Ok(2.0 * tiny)),
        (5.0 * tiny,       0.5,              Ok(2.0 * tiny)),
        (7.0 * tiny,       0.25,             Ok(2.0 * tiny)),
        (tiny,             tiny,             Ok(0.0)),
        (normal,           1.0 - place / 2.0, Ok(normal)),              // a tie, up to the first normal one
        (normal,           1.0 - place,      Ok(normal.next_down())),
        (tiny,             1.0 / place,      Ok(normal)),
        (2f64.powi(-537),  2f64.powi(-537),  Ok(tiny)),
        (2f64.powi(-538),  2f64.powi(-537),  Ok(0.0)),
        // Overflow's edge.
        (max,              1.0,              Ok(max)),
        (max,              1.0 + place,      Err(21)),
        (max,              -1.0 - place,     Err(21)),
        (max / 2.0,        2.0,              Ok(max)),
        (2f64.powi(512),   2f64.powi(512),   Err(21)),
        (2f64.powi(512),   2f64.powi(512).next_down(), Ok(max)),
        // (2^54 - 1)/3 times 3 is the tie at the edge.
        (1.5,              f64::from_bits(0x7fe5555555555555), Err(21)),
        (1.5,              f64::from_bits(0x7fe5555555555554), Ok(max.next_down())),
        // 20 comes first, and beside a zero too.
        (inf,              2.0,              Err(20)),
        (inf,              0.0,              Err(20)),
        (-inf,             -0.0,             Err(20)),
        (max,              inf,              Err(20)),
        (-inf,             inf,              Err(20)),
    ] {
        computes(0x42, x, y, answer);
        computes(0x42, y, x, answer);
    }
}

/// A step on two inputs of any value gives this, or is refused.
#[track_caller]
fn computes(opcode: u8, x: f64, y: f64, answer: Result<f64, u64>) {
    const FULL: &str = "010000fff00000000000007ff0000000000000\n"; // any double
    let text = format!("{FULL}{FULL}{opcode:02x}0001{:032}\n", 0);
    let frame = format!("{:016x}{:016x}", x.to_bits(), y.to_bits());
    let expected = match answer {
        Ok(value) => completed(1, value.to_bits()),
        Err(refusal) => refused(refusal, 2),
    };
    let outcome = check(Way::Exact, &call(&text, &frame));
    assert_eq!(outcome.answer, expected, "{opcode:02x} {x:e} {y:e}");
}

/// Steps 40 to 42 as lines: operands of one step, of the wrong kind, ahead, and fields that they don't use.
#[test]
#[rustfmt::skip]
fn sums_and_products_as_lines() {
    const FULL: &str = "010000fff00000000000007ff0000000000000\n"; // any double
    const WHOLE: &str = "02000080000000000000007fffffffffffffff\n"; // any whole number
    for (text, frame, answer) in [
        (format!("{FULL}400000{:032}\n", 0), "3ff8000000000000", completed(1, 0x4008000000000000)), // 1.5 + 1.5
        (format!("{FULL}410000{:032}\n", 0), "bff8000000000000", completed(1, 0)),
        (format!("{FULL}420000{:032}\n", 0), "bff8000000000000", completed(1, 0x4002000000000000)), // 2.25
        (format!("{FULL}400000{:032}\n", 0), "8000000000000000", completed(1, 1 << 63)),
        (format!("{FULL}420000{:032}\n", 0), "8000000000000000", completed(1, 0)),
        (format!("{FULL}400000{:032}\n", 0), "7fefffffffffffff", refused(21, 1)),
        (format!("{FULL}400000{:032}\n", 0), "fff0000000000000", refused(20, 1)),
        (format!("{FULL}410000{:032}\n", 0), "7ff0000000000000", refused(20, 1)),
        (format!("{FULL}{WHOLE}400001{:032}\n", 0), "", refused(15, 2)),
        (format!("{WHOLE}{FULL}410001{:032}\n", 0), "", refused(15, 2)),
        (format!("{WHOLE}420000{:032}\n", 0), "", refused(15, 1)),
        (format!("{FULL}{FULL}400002{:032}\n", 0), "", refused(14, 2)),
        (format!("{FULL}{FULL}410200{:032}\n", 0), "", refused(14, 2)),
        (format!("{FULL}{FULL}420001{:031}1\n", 0), "", refused(13, 2)),
        (format!("{FULL}{FULL}4000010000000000000001{:016}\n", 0), "", refused(13, 2)),
        (format!("33{:036}\n", 0), "", refused(12, 0)),
        (format!("3f{:036}\n", 0), "", refused(12, 0)),
        (format!("43{:036}\n", 0), "", refused(12, 0)),
        (format!("50{:036}\n", 0), "", refused(12, 0)),
        (format!("c0{:036}\n", 0), "", refused(12, 0)),
        // A refusal at an earlier step comes first.
        (format!("{FULL}400000{:032}\n1800{:034}\n", 0, 0), "7fefffffffffffff", refused(21, 1)),
        (format!("{FULL}1800{:034}\n400000{:032}\n", 0, 0), "7ff0000000000000", refused(21, 1)),
    ] {
        let outcome = check(Way::Exact, &call(&text, frame));
        assert_eq!(outcome.answer, answer, "{text}{frame}");
    }
}

/// "Order: 10; then line by line 11 to 17; then 40; for a run 30, 31 .."
#[test]
fn too_short_a_memory_comes_after_the_text_and_before_the_frame() {
    let short = |text: &str, frame: &str| {
        let mut call = call(text, frame);
        call.lent = 0;
        check(Way::Exact, &call).answer
    };
    assert_eq!(short(EXAMPLE, "bfe0000000000000"), refused(40, 0));
    assert_eq!(short(EXAMPLE, ""), refused(40, 0));
    assert_eq!(short(EXAMPLE, "Z"), refused(40, 0));
    assert_eq!(short(EXAMPLE, "7ff8000000000000"), refused(40, 0));
    assert_eq!(short(&EXAMPLE[1..], ""), refused(10, 0));
    assert_eq!(short(&EXAMPLE.replace("1801", "1803"), ""), refused(14, 2));
}
