//! What document 01 prints, with W-203's marks, what W-202 says of the zeros in fmin and fmax, and
//! W-204's step 24.

use crate::BEFORE;
use estrenwind_tests::library::SheetAnswer;
use estrenwind_tests::recipes::comparison::check;
use estrenwind_tests::recipes::zeros::BOTH_ORDERS;
use estrenwind_tests::recipes::{Call, SheetCall};
use estrenwind_tests::reference::recipe::{sheet, text, Way};

const EXAMPLE: &str = "\
010000c004000000000000401d000000000000
10000000000000000000000000000000000000
18010000000000000000000000000000000000
";

const EXAMPLE_SHEET: &str = "\
000100c004000000000000401d000000000000
010101c008000000000000401c000000000000
020201fffffffffffffffd0000000000000007
";

/// The sheet of a text, with memory for just its lines.
fn call(text: &str) -> SheetCall {
    SheetCall {
        text: text.into(),
        lent: text.len() / text::LINE * sheet::LINE,
    }
}

fn refused(refusal: u64, place: u64) -> SheetAnswer {
    SheetAnswer {
        refusal,
        place,
        steps: 0,
    }
}

fn passed(steps: usize) -> SheetAnswer {
    SheetAnswer::passed(steps)
}

#[test]
fn the_example_s_sheet_is_as_printed() {
    for more in [0, 1, 38, 39, 1000] {
        let mut call = call(EXAMPLE);
        call.lent += more;
        let outcome = check(Way::Exact, &call);
        assert_eq!(outcome.answer, passed(3));
        let end = BEFORE + EXAMPLE_SHEET.len();
        assert_eq!(outcome.memory[BEFORE..end], *EXAMPLE_SHEET.as_bytes());
        let filled = call.filled();
        assert_eq!(outcome.memory[..BEFORE], filled[..BEFORE]);
        assert_eq!(outcome.memory[end..], filled[end..]);
    }
}

/// The sheet of `BOTH_ORDERS`.
const ZEROS_SHEET: &str = "\
00010000000000000000004000000000000000
01010080000000000000004008000000000000
02010080000000000000004000000000000000
03010080000000000000004000000000000000
04010000000000000000004008000000000000
05010000000000000000004008000000000000
060100c0000000000000000000000000000000
07010000000000000000004000000000000000
";

/// W-202: "Ranges on sheets are still compared as numbers", so fmin's range, from -0, isn't below
/// zero: its magnitudes start at +0, and as a divisor it holds zero as before.
#[test]
fn the_zeros_in_fmin_and_fmax() {
    let outcome = check(Way::Exact, &call(BOTH_ORDERS));
    assert_eq!(outcome.answer, passed(8));
    let shown = &outcome.memory[BEFORE..][..ZEROS_SHEET.len()];
    assert_eq!(
        shown.escape_ascii().to_string(),
        ZEROS_SHEET.escape_default().to_string()
    );
    for divisor in 0..8 {
        let text = format!("{BOTH_ORDERS}2200{divisor:02x}{:032}\n", 0);
        let outcome = check(Way::Exact, &call(&text));
        assert_eq!(outcome.answer, refused(20, 8), "by step {divisor}");
    }
}

/// An angle from -1000 to 1000 degrees, its floor, a turn, and what is left of both by the nearest
/// turn.
const TURN: &str = "\
010000c08f400000000000408f400000000000
10000000000000000000000000000000000000
03000040768000000000000000000000000000
24000200000000000000000000000000000000
24010200000000000000000000000000000000
";

const TURN_SHEET: &str = "\
000100c08f400000000000408f400000000000
010101c08f400000000000408f400000000000
02010140768000000000004076800000000000
030100c0768000000000004076800000000000
040101c0768000000000004076800000000000
";

/// W-204: "Let m be the smaller, by fmin, of the greatest magnitudes among the ends of a and of b; its
/// range is -m to m, marked when both operands are."
#[test]
fn the_nearest_remainder() {
    let outcome = check(Way::Exact, &call(TURN));
    assert_eq!(outcome.answer, passed(5));
    let shown = &outcome.memory[BEFORE..][..TURN_SHEET.len()];
    assert_eq!(
        shown.escape_ascii().to_string(),
        TURN_SHEET.escape_default().to_string()
    );
}

/// From 0 to 1 and from -2 to 3: their sum, the difference, the product, its square by itself, and the
/// floors of both added: the same with the mark.
const SUMS: &str = "\
01000000000000000000003ff0000000000000
010000c0000000000000004008000000000000
40000100000000000000000000000000000000
41000100000000000000000000000000000000
42000100000000000000000000000000000000
42010100000000000000000000000000000000
10000000000000000000000000000000000000
10010000000000000000000000000000000000
40060700000000000000000000000000000000
41060700000000000000000000000000000000
42060700000000000000000000000000000000
40060100000000000000000000000000000000
";

/// -2 to 4, -3 to 3, -2 to 3, -6 to 9.
const SUMS_SHEET: &str = "\
00010000000000000000003ff0000000000000
010100c0000000000000004008000000000000
020100c0000000000000004010000000000000
030100c0080000000000004008000000000000
040100c0000000000000004008000000000000
050100c0180000000000004022000000000000
06010100000000000000003ff0000000000000
070101c0000000000000004008000000000000
080101c0000000000000004010000000000000
090101c0080000000000004008000000000000
0a0101c0000000000000004008000000000000
0b0100c0000000000000004010000000000000
";

/// W-208: "add low+low to high+high; subtract low-high to high-low; multiply the fmin and the fmax of the
/// four end products. Marked when both operands are."
#[test]
fn sums_differences_and_products() {
    let outcome = check(Way::Exact, &call(SUMS));
    assert_eq!(outcome.answer, passed(12));
    let shown = &outcome.memory[BEFORE..][..SUMS_SHEET.len()];
    assert_eq!(
        shown.escape_ascii().to_string(),
        SUMS_SHEET.escape_default().to_string()
    );
}

/// Each row breaks one rule of "Turning text down" and keeps to all before it, many of them also
/// break a later one. The answers are read off document 01, not off the reference.
#[test]
#[rustfmt::skip]
fn what_is_turned_down_and_with_which_number() {
    const FULL: &str = "010000fff00000000000007ff0000000000000\n"; // any double
    const WHOLE: &str = "02000080000000000000007fffffffffffffff\n"; // any whole number
    const SMALL: &str = "010000bff00000000000003ff0000000000000\n"; // -1 to 1
    const LARGE: &str = "010000ffefffffffffffff7fefffffffffffff\n"; // any finite double
    const NEXT: &str = "10000000000000000000000000000000000000\n"; // floor of step 0
    let full16 = FULL.repeat(16);
    for (text, answer) in [
        ("", refused(10, 0)),
        ("\n", refused(10, 0)),
        (&FULL[..38], refused(10, 0)),
        (&format!("{FULL}\n"), refused(10, 0)),
        (&NEXT.repeat(129), refused(10, 0)),
        (&NEXT.repeat(128), refused(14, 0)),                                       // floor of itself
        (&format!("{FULL}{}", NEXT.repeat(127)), passed(128)),
        ("0A0000fff00000000000007ff0000000000000\n", refused(11, 0)),              // 11 before 12
        ("010000fff00000000000007ff0000000000000 ", refused(11, 0)),
        ("010000fff00000000000007ff000000000000\n\n", refused(11, 0)),
        ("00000000000000000000000000000000000000\n", refused(12, 0)),
        ("05ff0000000000000000000000000000000000\n", refused(12, 0)),              // 12 before 13, 14
        ("19000000000000000000000000000000000000\n", refused(12, 0)),
        ("24000000000000000000000000000000000000\n", refused(14, 0)),              // a step, of itself
        ("25000000000000000000000000000000000000\n", refused(12, 0)),
        ("33000000000000000000000000000000000000\n", refused(12, 0)),
        ("3f000000000000000000000000000000000000\n", refused(12, 0)),
        ("40000000000000000000000000000000000000\n", refused(14, 0)),              // a step, of itself
        ("41000000000000000000000000000000000000\n", refused(14, 0)),
        ("42000000000000000000000000000000000000\n", refused(14, 0)),
        ("43000000000000000000000000000000000000\n", refused(12, 0)),
        ("4f000000000000000000000000000000000000\n", refused(12, 0)),
        ("10ff0000000000000000010000000000000000\n", refused(13, 0)),              // 13 before 14
        ("10000100000000000000000000000000000000\n", refused(13, 0)),
        ("0101007ff80000000000000000000000000000\n", refused(13, 0)),              // 13 before 16
        ("0300003ff00000000000003ff0000000000000\n", refused(13, 0)),
        (&format!("{WHOLE}{FULL}200002{:032}\n", 0), refused(14, 2)),              // A whole, B itself: 14 before 15
        (&format!("{WHOLE}{FULL}200200{:032}\n", 0), refused(14, 2)),
        (&format!("{WHOLE}{FULL}2001ff{:032}\n", 0), refused(14, 2)),
        (&format!("{WHOLE}{FULL}200100{:032}\n", 0), refused(15, 2)),
        (&format!("{WHOLE}{FULL}230001{:032}\n", 0), refused(15, 2)),              // ldexp with A and B exchanged
        (&format!("{WHOLE}{NEXT}"), refused(15, 1)),
        (&format!("{FULL}3200{:034}\n", 0), refused(15, 1)),
        ("0100000000000000000000bff0000000000000\n", refused(16, 0)),              // 0 to -1
        ("010000bff0000000000000c000000000000000\n", refused(16, 0)),              // -1 to -2
        ("010000c000000000000000bff0000000000000\n", passed(1)),                   // -2 to -1
        ("01000000000000000000008000000000000000\n", passed(1)),                   // +0 to -0, equal
        ("010000fff00000000000007ff0000000000001\n", refused(16, 0)),
        ("010000fff80000000000007ff0000000000000\n", refused(16, 0)),
        ("0300007ff00000000000010000000000000000\n", refused(16, 0)),
        ("0400007ff00000000000010000000000000000\n", passed(1)),
        ("0200000000000000000000ffffffffffffffff\n", refused(16, 0)),              // 0 to -1
        ("020000ffffffffffffffff0000000000000000\n", passed(1)),                   // -1 to 0
        ("0200007ff800000000000080000000000000ff\n", refused(16, 0)),
        (&full16, passed(16)),
        (&format!("{full16}{FULL}"), refused(17, 16)),
        (&format!("{full16}0100003ff00000000000000000000000000000\n"), refused(16, 16)), // 16 before 17
        (&format!("{full16}{FULL}zz{:036}\n", 0), refused(17, 16)),                // an earlier line before 11
        (&format!("{full16}{NEXT}{WHOLE}"), refused(17, 17)),
        (&format!("{FULL}1800{:034}\n{}", 0, "z".repeat(39)), refused(11, 2)),     // 11 to 17 of all lines before 20 to 22
        (&format!("{FULL}1800{:034}\n{full16}", 0), refused(17, 17)),
        (&format!("{FULL}220000{:032}\n", 0), refused(20, 1)),
        (&format!("{SMALL}220000{:032}\n", 0), refused(20, 1)),                    // b holds zero between its ends
        (&format!("{FULL}240000{:032}\n", 0), refused(20, 1)),
        (&format!("{SMALL}240000{:032}\n", 0), refused(20, 1)),
        (&format!("{FULL}0300003ff0000000000000{:016}\n240001{:032}\n", 0, 0), refused(20, 2)), // infinite ends of a
        (&format!("{SMALL}0300003ff0000000000000{:016}\n240001{:032}\n", 0, 0), passed(3)),
        (&format!("{WHOLE}{SMALL}240001{:032}\n", 0), refused(15, 2)),
        (&format!("{SMALL}{WHOLE}240001{:032}\n", 0), refused(15, 2)),
        (&format!("{SMALL}{SMALL}240001{:031}1\n", 0), refused(13, 2)),
        (&format!("{SMALL}{SMALL}400001{:032}\n", 0), passed(3)),
        (&format!("{SMALL}{FULL}400001{:032}\n", 0), refused(20, 2)),              // infinite ends of b
        (&format!("{FULL}{SMALL}410001{:032}\n", 0), refused(20, 2)),              // of a
        (&format!("{FULL}420000{:032}\n", 0), refused(20, 1)),
        (&format!("{LARGE}400000{:032}\n", 0), refused(21, 1)),                    // both ends overflow
        (&format!("{LARGE}410000{:032}\n", 0), refused(21, 1)),
        (&format!("{LARGE}420000{:032}\n", 0), refused(21, 1)),
        (&format!("{LARGE}{SMALL}400001{:032}\n", 0), passed(3)),                  // MAX + 1 is MAX
        (&format!("{LARGE}{SMALL}420001{:032}\n", 0), passed(3)),
        (&format!("{LARGE}{FULL}400001{:032}\n", 0), refused(20, 2)),              // 20 before 21
        (&format!("{LARGE}400000{:032}\n{FULL}400202{:032}\n", 0, 0), refused(21, 1)), // 21 at an earlier step
        (&format!("{SMALL}{WHOLE}400001{:032}\n", 0), refused(15, 2)),
        (&format!("{WHOLE}{SMALL}410001{:032}\n", 0), refused(15, 2)),
        (&format!("{SMALL}{WHOLE}420001{:032}\n", 0), refused(15, 2)),
        (&format!("{SMALL}{SMALL}400001{:031}1\n", 0), refused(13, 2)),
        (&format!("{SMALL}{SMALL}4200018000000000000000{:016}\n", 0), refused(13, 2)),
        (&format!("{SMALL}{SMALL}410002{:032}\n", 0), refused(14, 2)),
        (&format!("{FULL}1800{:034}\n220000{:032}\n", 0, 0), refused(21, 1)),      // 21 at an earlier step
        (&format!("{FULL}220000{:032}\n1800{:034}\n", 0, 0), refused(20, 1)),      // 20 at one
        (&format!("{WHOLE}3200{:034}\n300000{:032}\n", 0, 0), refused(22, 1)),     // 22 at one
        (&format!("{WHOLE}300000{:032}\n3200{:034}\n", 0, 0), refused(21, 1)),
        (&format!("{FULL}{WHOLE}230001{:032}\n", 0), refused(21, 2)),
        (&format!("{FULL}0400000000000000000000{:016}\n230001{:032}\n", 0, 0), refused(21, 2)), // by 2^0 nothing overflows, infinity is reached
        (&format!("{SMALL}0400000000000000000000{:016}\n230001{:032}\n", 0, 0), passed(3)),
        (&format!("{SMALL}1800{:034}\n3001010000000000000000{:016}\n", 0, 0), passed(3)),
    ] {
        let outcome = check(Way::Exact, &call(text));
        assert_eq!(outcome.answer, answer, "{text}");
    }
}

/// "Order: 10; then line by line 11 to 17; then 40; .. then steps in order, 20 to 22." W-203: "room
/// is 39·n bytes", so 37·n, as before it, is too little, and so is 38·n.
#[test]
fn too_short_a_memory_comes_after_the_text_and_before_the_steps() {
    let lent = |lent: usize, text: &str| {
        let text = text.into();
        check(Way::Exact, &SheetCall { text, lent }).answer
    };
    let refusing = EXAMPLE.replace("401d000000000000", "7ff0000000000000");
    for short in [0, 1, 38, 39, 78, 3 * 37, 3 * 38, 3 * 39 - 1] {
        assert_eq!(lent(short, EXAMPLE), refused(40, 0));
        assert_eq!(lent(short, &refusing), refused(40, 0));
        assert_eq!(lent(short, &EXAMPLE[1..]), refused(10, 0));
        assert_eq!(
            lent(short, &EXAMPLE.replace("1801", "1803")),
            refused(14, 2)
        );
        assert_eq!(
            lent(short, &EXAMPLE.replace("1801", "180g")),
            refused(11, 2)
        );
    }
    for enough in [3 * 39, 3 * 39 + 1, 4 * 39, 5000] {
        assert_eq!(lent(enough, EXAMPLE), passed(3));
        assert_eq!(lent(enough, &refusing), refused(21, 2));
    }
}
