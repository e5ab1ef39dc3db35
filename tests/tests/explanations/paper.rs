//! What request W-205 says, read off it and document 01 by hand, not off the reference.

use estrenwind_tests::library::ExplainAnswer;
use estrenwind_tests::recipes::comparison::check;
use estrenwind_tests::recipes::limits::{INF, LEAST, MAX, MOST, TINY, TWO_53, TWO_62, TWO_63};
use estrenwind_tests::recipes::{Draft, Ends, ExplainCall, Line};
use estrenwind_tests::reference::recipe::Way;

/// Of a passed recipe: its reason is 00, and there is no step.
const PASSED: u64 = 0x00;

/// The last of these lines is refused for this reason, which blames that step; or all pass.
#[track_caller]
fn explains(lines: &[Line], operand: u64, reason: u64) {
    let (lines, words) = (lines.to_vec(), vec![]);
    let step = lines.len() as u64 - 1;
    let call = Draft { lines, words }.explain_call();
    let expected = match reason {
        PASSED => ExplainAnswer::PASSED,
        _ => ExplainAnswer {
            refusal: 0,
            place: 0,
            step,
            operand,
            reason,
        },
    };
    assert_eq!(check(Way::Exact, &call).answer, expected, "{call}");
}

/// A step on one other.
#[track_caller]
fn one<A: Ends>(opcode: u8, a: A, reason: u64) {
    explains(&[Line::input_of(a), Line::step(opcode, 0, 0)], 0, reason);
}

/// A step on two others, A's before B's and after it. But for 01, 10 and 11, A is to blame.
#[track_caller]
fn two<A: Ends, B: Ends>(opcode: u8, a: A, b: B, reason: u64) {
    let [a, b] = [Line::input_of(a), Line::input_of(b)];
    let of_b = [0x01, 0x10, 0x11].contains(&reason);
    explains(&[a, b, Line::step(opcode, 0, 1)], of_b as u64, reason);
    explains(&[b, a, Line::step(opcode, 1, 0)], !of_b as u64, reason);
}

/// A step that is given the same one twice.
#[track_caller]
fn twice<A: Ends>(opcode: u8, a: A, reason: u64) {
    explains(&[Line::input_of(a), Line::step(opcode, 0, 0)], 0, reason);
}

/// "01 divisor range holds zero; 02, 03 dividend's low, high end infinite". "Step 24 shares 01 to 03."
#[test]
#[rustfmt::skip]
fn fmod_and_remainder() {
    for (a, b, reason) in [
        ([-1.0, 1.0],    [-1.0, 2.0],    0x01),
        ([-1.0, 1.0],    [0.0, 2.0],     0x01),
        ([-1.0, 1.0],    [-0.0, 2.0],    0x01),
        ([-1.0, 1.0],    [-2.0, 0.0],    0x01),
        ([-1.0, 1.0],    [-2.0, -0.0],   0x01),
        ([-1.0, 1.0],    [0.0, -0.0],    0x01),
        ([-1.0, 1.0],    [-TINY, TINY],  0x01),
        ([-1.0, 1.0],    [-INF, INF],    0x01),
        ([-1.0, 1.0],    [TINY, INF],    PASSED),
        ([-1.0, 1.0],    [-INF, -TINY],  PASSED),
        ([-MAX, MAX],    [INF, INF],     PASSED),
        ([-INF, 1.0],    [1.0, 2.0],     0x02),
        ([-INF, -MAX],   [TINY, TINY],   0x02),
        ([-MAX, INF],    [1.0, 2.0],     0x03),
        ([MAX, INF],     [-2.0, -1.0],   0x03),
        // Several at once.
        ([-INF, INF],    [1.0, 2.0],     0x02),
        ([-INF, -INF],   [1.0, 2.0],     0x02),
        ([INF, INF],     [INF, INF],     0x02),
        ([-INF, 1.0],    [-1.0, 1.0],    0x01),
        ([1.0, INF],     [0.0, 0.0],     0x01),
        ([-INF, INF],    [-0.0, MAX],    0x01),
    ] {
        two(0x22, a, b, reason);
        two(0x24, a, b, reason);
    }
    for (a, reason) in [
        ([-1.0, 1.0],    0x01),
        ([-INF, INF],    0x01),
        ([-INF, 0.0],    0x01),
        ([-0.0, INF],    0x01),
        ([-INF, -1.0],   0x02),
        ([INF, INF],     0x02),
        ([TINY, INF],    0x03),
        ([TINY, MAX],    PASSED),
    ] {
        twice(0x22, a, reason);
        twice(0x24, a, reason);
    }
}

/// "04, 05 lround of the low, high end".
#[test]
#[rustfmt::skip]
fn lround() {
    let below = TWO_63.next_down();
    for (a, reason) in [
        ([-TWO_63, below],              PASSED),
        ([-0.5, 0.5],                   PASSED),
        ([(-TWO_63).next_down(), 0.0],  0x04),
        ([-MAX, -TWO_63],               0x04),
        ([-INF, below],                 0x04),
        ([0.0, TWO_63],                 0x05),
        ([-TWO_63, TWO_63],             0x05),
        ([below, MAX],                  0x05),
        ([-TWO_63, INF],                0x05),
        // Both.
        ([(-TWO_63).next_down(), TWO_63], 0x04),
        ([-INF, INF],                   0x04),
        ([TWO_63, TWO_63],              0x04),
        ([INF, INF],                    0x04),
        ([-INF, -MAX],                  0x04),
    ] {
        one(0x18, a, reason);
    }
}

/// "06, 07 whole answer's low, high end": of a sum low+low, high+high, of a difference low-high,
/// high-low.
#[test]
#[rustfmt::skip]
fn sums_and_differences() {
    for (opcode, a, b, reason) in [
        (0x30, [LEAST, MOST],     [0, 0],         PASSED),
        (0x30, [LEAST, LEAST],    [MOST, MOST],   PASSED),
        (0x30, [LEAST + 1, 0],    [-1, 0],        PASSED),
        (0x30, [LEAST, 0],        [-1, 0],        0x06),
        (0x30, [-1, MOST],        [LEAST, 0],     0x06),
        (0x30, [0, MOST - 1],     [0, 1],         PASSED),
        (0x30, [0, MOST],         [0, 1],         0x07),
        (0x30, [LEAST, 1],        [0, MOST],      0x07),
        (0x30, [LEAST, MOST],     [-1, 1],        0x06),
        (0x30, [MOST, MOST],      [1, 1],         0x06),
        (0x30, [LEAST, LEAST],    [-1, -1],       0x06),
        (0x31, [-1, -1],          [LEAST, MOST],  PASSED),
        (0x31, [0, 0],            [-MOST, MOST],  PASSED),
        (0x31, [LEAST, LEAST],    [LEAST, LEAST], PASSED),
        (0x31, [-2, -2],          [0, MOST],      0x06),
        (0x31, [LEAST, 0],        [0, 1],         0x06),
        (0x31, [LEAST, 0],        [1, 1],         0x06),
        (0x31, [0, 0],            [LEAST, 0],     0x07),
        (0x31, [0, MOST],         [-1, 0],        0x07),
        (0x31, [0, MOST],         [-1, -1],       0x07),
        (0x31, [LEAST, MOST],     [-1, 1],        0x06),
        (0x31, [MOST, MOST],      [-1, -1],       0x06),
        (0x31, [LEAST, LEAST],    [1, 1],         0x06),
    ] {
        two(opcode, a, b, reason);
    }
    for (opcode, a, reason) in [
        (0x30, [-TWO_62, TWO_62 - 1],     PASSED),
        (0x30, [-TWO_62 - 1, TWO_62 - 1], 0x06),
        (0x30, [-TWO_62, TWO_62],         0x07),
        (0x30, [-TWO_62 - 1, TWO_62],     0x06),
        (0x30, [TWO_62, TWO_62],          0x06),
        (0x31, [0, MOST],                 PASSED),
        (0x31, [LEAST, -1],               PASSED),
        // -2^63 fits, 2^63 doesn't.
        (0x31, [LEAST, 0],                0x07),
        (0x31, [-TWO_62, TWO_62],         0x07),
        (0x31, [-TWO_62, TWO_62 + 1],     0x06),
        (0x31, [LEAST, MOST],             0x06),
    ] {
        twice(opcode, a, reason);
    }
}

/// "08, 09 ldexp operand's low, high end infinite; 0a, 0b ldexp's low, high end overflows": the low
/// end is scaled by b.high if it is below 0, else by b.low; the high end by b.high if it is above
/// 0, else by b.low.
#[test]
#[rustfmt::skip]
fn ldexp() {
    for (a, b, reason) in [
        ([-INF, 1.0],    [0, 0],         0x08),
        ([-INF, -MAX],   [LEAST, LEAST], 0x08),
        ([-1.0, INF],    [0, 0],         0x09),
        ([MAX, INF],     [LEAST, -1],    0x09),
        ([-1.0, 0.0],    [0, 1023],      PASSED),
        ([-1.0, 0.0],    [0, 1024],      0x0a),
        ([-1.0, -0.0],   [1024, MOST],   0x0a),
        ([-TINY, 0.5],   [2097, 2097],   0x0b),
        ([-TINY, 0.0],   [LEAST, 2097],  PASSED),
        ([-TINY, 0.0],   [LEAST, 2098],  0x0a),
        ([-TINY, 0.0],   [0, MOST],      0x0a),
        ([-3.0, 1.0],    [0, 1023],      0x0a),
        ([0.0, 1.0],     [0, 1023],      PASSED),
        ([0.0, 1.0],     [0, 1024],      0x0b),
        ([-0.0, TINY],   [0, 2098],      0x0b),
        ([-1.0, 3.0],    [0, 1023],      0x0b),
        ([-0.0, 0.0],    [LEAST, MOST],  PASSED),
        ([0.0, -0.0],    [MOST, MOST],   PASSED),
        // Both ends on one side of zero: each by its own power.
        ([1.0, 3.0],     [0, 1023],      0x0b),
        ([1.0, 1.0],     [0, 1024],      0x0b),
        ([1.0, 1.0],     [1023, 1024],   0x0b),
        ([1.0, 1.0],     [1024, 1024],   0x0a),
        ([1.0, 3.0],     [1023, 1023],   0x0b),
        ([-3.0, -1.0],   [0, 1023],      0x0a),
        ([-1.0, -1.0],   [0, 1024],      0x0a),
        ([-1.0, -1.0],   [1024, 1024],   0x0a),
        ([-MAX, -MAX],   [0, 0],         PASSED),
        ([-MAX, -MAX],   [0, 1],         0x0a),
        ([MAX, MAX],     [0, 1],         0x0b),
        ([MAX, MAX],     [1, 1],         0x0a),
        ([MAX, MAX],     [LEAST, -1],    PASSED),
        // Several at once.
        ([-INF, INF],    [0, 0],         0x08),
        ([-INF, -INF],   [0, 0],         0x08),
        ([INF, INF],     [LEAST, MOST],  0x08),
        ([-INF, 1.0],    [0, 1024],      0x08),
        ([-1.0, INF],    [0, 1024],      0x09),
        ([1.0, INF],     [1024, 1024],   0x09),
        ([-1.0, 1.0],    [0, 1024],      0x0a),
        ([-MAX, MAX],    [1, 1],         0x0a),
        ([TINY, TINY],   [MOST, MOST],   0x0a),
    ] {
        two(0x23, a, b, reason);
    }
}

/// "0c, 0d whole too big at its low, high end": of a magnitude over 2^53.
#[test]
#[rustfmt::skip]
fn whole_to_double() {
    for (a, reason) in [
        ([-TWO_53, TWO_53],         PASSED),
        ([-TWO_53 - 1, 0],          0x0c),
        ([-TWO_53 - 1, TWO_53],     0x0c),
        ([LEAST, -TWO_53],          0x0c),
        ([0, TWO_53 + 1],           0x0d),
        ([-TWO_53, TWO_53 + 1],     0x0d),
        ([TWO_53, MOST],            0x0d),
        // Both.
        ([-TWO_53 - 1, TWO_53 + 1], 0x0c),
        ([TWO_53 + 1, TWO_53 + 1],  0x0c),
        ([LEAST, LEAST],            0x0c),
        ([LEAST, MOST],             0x0c),
    ] {
        one(0x32, a, reason);
    }
}

/// A sum, a difference or a product of doubles, the ranges of a and b, and the reason.
pub type Row = (u8, [f64; 2], [f64; 2], u64);

/// Half of the largest number's last place, 2^970: MAX and so much is rounded to infinity.
const EDGE: f64 = f64::from_bits((970 + 1023) << 52);
const BELOW_EDGE: f64 = f64::from_bits(((970 + 1023) << 52) - 1);
/// 2^512, whose square is beyond the largest.
const ROOT: f64 = f64::from_bits((512 + 1023) << 52);
const BELOW_ROOT: f64 = f64::from_bits(((512 + 1023) << 52) - 1);

/// W-208: "0e to 11, an infinite end (a low, a high, b low, b high), and 12, 13, low and high answer
/// overflows, naming A".
#[rustfmt::skip]
pub const SUMS: &[Row] = &[
    (0x40, [-1.0, 1.0],     [-1.0, 1.0],     PASSED),
    (0x40, [-MAX, MAX],     [-1.0, 1.0],     PASSED),
    (0x40, [-MAX, -MAX],    [MAX, MAX],      PASSED),
    (0x40, [-INF, 1.0],     [0.0, 1.0],      0x0e),
    (0x40, [0.0, INF],      [0.0, 1.0],      0x0f),
    (0x40, [0.0, 1.0],      [-INF, 1.0],     0x10),
    (0x40, [0.0, 1.0],      [0.0, INF],      0x11),
    (0x40, [-MAX, 0.0],     [-MAX, 0.0],     0x12),
    (0x40, [0.0, MAX],      [0.0, MAX],      0x13),
    (0x40, [-MAX, 0.0],     [-BELOW_EDGE, 0.0], PASSED),
    (0x40, [-MAX, 0.0],     [-EDGE, 0.0],    0x12),
    (0x40, [0.0, MAX],      [0.0, BELOW_EDGE], PASSED),
    (0x40, [0.0, MAX],      [0.0, EDGE],     0x13),
    // An infinite end of either sign.
    (0x40, [INF, INF],      [0.0, 1.0],      0x0e),
    (0x40, [-INF, -INF],    [0.0, 1.0],      0x0e),
    (0x40, [0.0, 1.0],      [INF, INF],      0x10),
    (0x40, [0.0, 1.0],      [-INF, -INF],    0x10),
    // Several at once.
    (0x40, [-MAX, MAX],     [-MAX, MAX],     0x12),
    (0x40, [MAX, MAX],      [MAX, MAX],      0x12),
    (0x40, [-MAX, -MAX],    [-MAX, -MAX],    0x12),
    (0x40, [-INF, INF],     [-INF, INF],     0x0e),
    (0x40, [-INF, INF],     [0.0, 1.0],      0x0e),
    (0x40, [0.0, 1.0],      [-INF, INF],     0x10),
    (0x40, [0.0, INF],      [-INF, 0.0],     0x0f),
    (0x40, [0.0, INF],      [0.0, INF],      0x0f),
    (0x40, [-INF, 0.0],     [0.0, INF],      0x0e),
    (0x40, [-INF, 0.0],     [-INF, 0.0],     0x0e),
    (0x40, [-INF, MAX],     [0.0, MAX],      0x0e),
    (0x40, [-MAX, INF],     [-MAX, 0.0],     0x0f),
    (0x40, [0.0, MAX],      [-INF, MAX],     0x10),
    (0x40, [-MAX, 0.0],     [-MAX, INF],     0x11),
    // A difference: the low answer is low - high.
    (0x41, [-1.0, 1.0],     [-1.0, 1.0],     PASSED),
    (0x41, [-MAX, 0.0],     [-MAX, 0.0],     PASSED),
    (0x41, [MAX, MAX],      [MAX, MAX],      PASSED),
    (0x41, [-INF, 1.0],     [0.0, 1.0],      0x0e),
    (0x41, [0.0, INF],      [0.0, 1.0],      0x0f),
    (0x41, [0.0, 1.0],      [-INF, 1.0],     0x10),
    (0x41, [0.0, 1.0],      [0.0, INF],      0x11),
    (0x41, [-MAX, 0.0],     [0.0, MAX],      0x12),
    (0x41, [0.0, MAX],      [-MAX, 0.0],     0x13),
    (0x41, [-MAX, 0.0],     [0.0, BELOW_EDGE], PASSED),
    (0x41, [-MAX, 0.0],     [0.0, EDGE],     0x12),
    (0x41, [0.0, MAX],      [-BELOW_EDGE, 0.0], PASSED),
    (0x41, [0.0, MAX],      [-EDGE, 0.0],    0x13),
    (0x41, [-MAX, MAX],     [-MAX, MAX],     0x12),
    (0x41, [MAX, MAX],      [-MAX, -MAX],    0x12),
    (0x41, [INF, INF],      [INF, INF],      0x0e),
    (0x41, [0.0, 1.0],      [INF, INF],      0x10),
    (0x41, [-MAX, INF],     [0.0, MAX],      0x0f),
    (0x41, [-INF, MAX],     [-MAX, 0.0],     0x0e),
    (0x41, [-MAX, 0.0],     [-INF, MAX],     0x10),
    (0x41, [0.0, MAX],      [-MAX, INF],     0x11),
    // A product: the answers are the fmin and the fmax of four.
    (0x42, [-MAX, MAX],     [-1.0, 1.0],     PASSED),
    (0x42, [0.0, 0.0],      [-MAX, MAX],     PASSED),
    (0x42, [-INF, 1.0],     [0.0, 0.0],      0x0e),
    (0x42, [0.0, INF],      [0.0, 0.0],      0x0f),
    (0x42, [0.0, 0.0],      [-INF, 0.0],     0x10),
    (0x42, [0.0, 0.0],      [0.0, INF],      0x11),
    (0x42, [0.0, MAX],      [0.0, 2.0],      0x13),
    (0x42, [-MAX, 0.0],     [-2.0, 0.0],     0x13),
    (0x42, [-MAX, 0.0],     [0.0, 2.0],      0x12),
    (0x42, [0.0, MAX],      [-2.0, 0.0],     0x12),
    (0x42, [-1.0, MAX],     [-2.0, 1.0],     0x12),
    (0x42, [-MAX, 1.0],     [-1.0, 2.0],     0x12),
    (0x42, [-MAX, 1.0],     [-2.0, 1.0],     0x13),
    (0x42, [-1.0, MAX],     [-1.0, 2.0],     0x13),
    (0x42, [1.0, ROOT],     [1.0, BELOW_ROOT], PASSED),
    (0x42, [1.0, ROOT],     [1.0, ROOT],     0x13),
    (0x42, [-ROOT, -1.0],   [1.0, BELOW_ROOT], PASSED),
    (0x42, [-ROOT, -1.0],   [1.0, ROOT],     0x12),
    (0x42, [-MAX, MAX],     [0.0, 2.0],      0x12),
    (0x42, [MAX, MAX],      [2.0, 2.0],      0x12),
    (0x42, [-MAX, -MAX],    [-2.0, -2.0],    0x12),
    (0x42, [-MAX, -MAX],    [2.0, 2.0],      0x12),
    (0x42, [MAX, INF],      [2.0, 2.0],      0x0f),
    (0x42, [2.0, 2.0],      [-INF, MAX],     0x10),
    (0x42, [MAX, MAX],      [2.0, INF],      0x11),
    (0x42, [-INF, INF],     [-INF, INF],     0x0e),
    (0x42, [0.0, INF],      [-INF, 0.0],     0x0f),
];

#[test]
fn sums_and_products_of_doubles() {
    for &(opcode, a, b, reason) in SUMS {
        two(opcode, a, b, reason);
    }
}

#[test]
#[rustfmt::skip]
fn sums_and_products_of_one_step() {
    let half = 0.5 * MAX;
    for (opcode, a, reason) in [
        (0x40, [-half, half],     PASSED),
        (0x40, [-MAX, half],      0x12),
        (0x40, [-half, MAX],      0x13),
        (0x40, [-MAX, MAX],       0x12),
        (0x40, [-INF, MAX],       0x0e),
        (0x40, [-MAX, INF],       0x0f),
        (0x40, [INF, INF],        0x0e),
        (0x41, [-half, half],     PASSED),
        (0x41, [-MAX, half],      0x12),
        (0x41, [MAX, MAX],        PASSED),
        (0x41, [-INF, 0.0],       0x0e),
        (0x41, [0.0, INF],        0x0f),
        (0x42, [-1.0, BELOW_ROOT], PASSED),
        (0x42, [-1.0, ROOT],      0x13),
        (0x42, [-ROOT, 1.0],      0x13),
        (0x42, [-ROOT, ROOT],     0x12),
        (0x42, [ROOT, ROOT],      0x12),
        (0x42, [-INF, 0.0],       0x0e),
        (0x42, [0.0, INF],        0x0f),
    ] {
        twice(opcode, a, reason);
    }
}

/// What is written for a text, as the program's line has it: "A passed recipe answers 00; a recipe
/// refused earlier gives that refusal." The answers of the C call are told from their fields.
#[test]
#[rustfmt::skip]
fn texts_and_their_lines() {
    const EXAMPLE: &str = "\
010000c004000000000000401d000000000000
10000000000000000000000000000000000000
18010000000000000000000000000000000000
";
    const FULL: &str = "010000fff00000000000007ff0000000000000\n"; // any double
    const WHOLE: &str = "02000080000000000000007fffffffffffffff\n"; // any whole number
    const NEXT: &str = "10000000000000000000000000000000000000\n"; // floor of step 0
    const FMOD: &str = "22000000000000000000000000000000000000\n"; // of step 0 by itself
    const REMAINDER: &str = "24000000000000000000000000000000000000\n"; // of step 0 by itself
    const LROUND: &str = "18000000000000000000000000000000000000\n"; // of step 0
    const LARGE: &str = "010000ffefffffffffffff7fefffffffffffff\n"; // any finite double
    const ADD: &str = "40000000000000000000000000000000000000\n"; // of step 0 and itself
    const MULTIPLY: &str = "42000000000000000000000000000000000000\n"; // of step 0 and itself
    const TO_DOUBLE: &str = "32000000000000000000000000000000000000\n"; // of step 0
    const SUM: &str = "30000000000000000000000000000000000000\n"; // of step 0 and itself
    let up = EXAMPLE.replace("401d", "7ff0");
    let down = EXAMPLE.replace("c004", "fff0");
    let full16 = FULL.repeat(16);
    let floors = NEXT.repeat(126);
    for (text, line) in [
        (EXAMPLE, "00"),
        (&up, "020105"),
        (&down, "020104"),
        // The first step that is refused, whatever comes after it.
        (&format!("{FULL}{LROUND}"), "010004"),
        (&format!("{FULL}{LROUND}{FMOD}"), "010004"),
        (&format!("{FULL}{FMOD}{LROUND}"), "010001"),
        (&format!("{FULL}{REMAINDER}{FMOD}"), "010001"),
        (&format!("{FULL}{LROUND}{REMAINDER}"), "010004"),
        (&format!("{FULL}{NEXT}{FMOD}{LROUND}"), "020001"),
        (&format!("{WHOLE}{TO_DOUBLE}{SUM}"), "01000c"),
        (&format!("{WHOLE}{SUM}{TO_DOUBLE}"), "010006"),
        (&format!("{FULL}{LROUND}{}", &floors[39..]), "010004"),
        (&format!("{FULL}{floors}{LROUND}"), "7f0004"),
        (&format!("{FULL}{floors}187e{:034}\n", 0), "7f7e04"),
        (&format!("{FULL}{floors}22007e{:032}\n", 0), "7f7e01"),
        (&format!("{FULL}{floors}227e00{:032}\n", 0), "7f0001"),
        (&format!("{FULL}{floors}24007e{:032}\n", 0), "7f7e01"),
        (&format!("{FULL}{floors}247e00{:032}\n", 0), "7f0001"),
        (&format!("{FULL}{ADD}{LROUND}"), "01000e"),
        (&format!("{FULL}{LROUND}{ADD}"), "010004"),
        (&format!("{LARGE}{ADD}"), "010012"),
        (&format!("{LARGE}{FULL}400001{:032}\n", 0), "020110"),
        (&format!("{LARGE}{FULL}400100{:032}\n", 0), "02010e"),
        (&format!("{LARGE}{FULL}420001{:032}\n", 0), "020110"),
        (&format!("{LARGE}{floors}{MULTIPLY}"), "7f0012"),
        (&format!("{LARGE}{floors}41007e{:032}\n", 0), "7f0012"),
        (&format!("{LARGE}{floors}417e00{:032}\n", 0), "7f7e12"),
        (&format!("{FULL}{LARGE}{}40017e{:032}\n", &floors[39..], 0), "7f7e10"),
        (&format!("{FULL}{floors}{NEXT}"), "00"),
        // A recipe refused earlier, though a step of it would be refused too.
        ("", "ff0a00"),
        ("\n", "ff0a00"),
        (&FULL[..38], "ff0a00"),
        (&format!("{FULL}{LROUND}\n"), "ff0a00"),
        (&format!("{FULL}{floors}{LROUND}{LROUND}"), "ff0a00"),
        (&format!("{FULL}{LROUND}{}", "z".repeat(39)), "ff0b02"),
        (&format!("{FULL}{LROUND}{:038}\n", 0), "ff0c02"),
        (&format!("{FULL}{LROUND}25{:036}\n", 0), "ff0c02"),
        (&format!("{FULL}{ADD}3f{:036}\n", 0), "ff0c02"),
        (&format!("{FULL}{ADD}43{:036}\n", 0), "ff0c02"),
        (&format!("{FULL}{ADD}4002{:034}\n", 0), "ff0e02"),
        (&format!("{WHOLE}{ADD}"), "ff0f01"),
        (&format!("{FULL}{LROUND}180001{:032}\n", 0), "ff0d02"),
        (&format!("{FULL}{LROUND}1802{:034}\n", 0), "ff0e02"),
        (&format!("{FULL}{LROUND}1801{:034}\n", 0), "ff0f02"),
        (&format!("{FULL}{LROUND}0300007ff8{:028}\n", 0), "ff1002"),
        (&format!("{FULL}{LROUND}{full16}"), "ff1111"),
        (&format!("{full16}{LROUND}{floors}"), "ff0a00"),
        (&format!("{full16}{LROUND}"), "100004"),
    ] {
        let answer = check(Way::Exact, &ExplainCall { text: text.into() }).answer;
        let ExplainAnswer { refusal, place, step, operand, reason } = answer;
        let told = match (refusal, reason) {
            (0, PASSED) => {
                assert_eq!(answer, ExplainAnswer::PASSED, "{text}");
                "00".to_string()
            }
            (0, _) => {
                assert_eq!(place, 0, "{text}");
                format!("{step:02x}{operand:02x}{reason:02x}")
            }
            _ => {
                assert_eq!((step, operand, reason), (0, 0, 0), "{text}");
                format!("ff{refusal:02x}{place:02x}")
            }
        };
        assert_eq!(told, line, "{text}");
    }
}
