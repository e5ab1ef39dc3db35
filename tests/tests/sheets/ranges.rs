//! The range rules where they change: ranges read off document 01 by hand, not off the reference.
//!
//! Each row is one step on inputs of the ranges given, and what the sheet shows for it, to the bit;
//! or the number with which it's refused. The marks are in `marks`.

use crate::shown_lines;
use estrenwind_tests::library::SheetAnswer;
use estrenwind_tests::recipes::comparison::check;
use estrenwind_tests::recipes::limits::{INF, LEAST, MAX, MOST, TINY, TWO_53, TWO_63};
use estrenwind_tests::recipes::{Draft, Ends, Line};
use estrenwind_tests::reference::recipe::{Kind, Way};

/// The largest fraction, 1 - 2^-53.
const BELOW: f64 = 1.0 - f64::EPSILON / 2.0;
/// The number after 1.
const ABOVE: f64 = 1.0 + f64::EPSILON;

#[track_caller]
fn shows<R: Ends>(opcode: u8, inputs: &[Line], expected: Result<R, u64>) {
    let mut lines = inputs.to_vec();
    let step = lines.len();
    lines.push(Line::step(opcode, 0, step - 1));
    let words = vec![];
    let call = Draft { lines, words }.sheet_call();
    let outcome = check(Way::Exact, &call);
    match expected {
        Err(refusal) => {
            let (place, steps) = (step as u64, 0);
            let refused = SheetAnswer {
                refusal,
                place,
                steps,
            };
            assert_eq!(outcome.answer, refused, "{call}");
        }
        Ok(ends) => {
            assert_eq!(outcome.answer, SheetAnswer::passed(step + 1), "{call}");
            let shown = shown_lines(&outcome)[step];
            let [low, high] = ends.words();
            assert_eq!(shown.kind, R::KIND, "{call}");
            assert_eq!(
                format!("{:016x} {:016x}", shown.low, shown.high),
                format!("{low:016x} {high:016x}"),
                "{call}"
            );
        }
    }
}

#[track_caller]
fn one<A: Ends, R: Ends>(opcode: u8, a: A, expected: Result<R, u64>) {
    shows(opcode, &[Line::input_of(a)], expected);
}

#[track_caller]
fn two<A: Ends, B: Ends, R: Ends>(opcode: u8, a: A, b: B, expected: Result<R, u64>) {
    shows(opcode, &[Line::input_of(a), Line::input_of(b)], expected);
}

/// "function of each end". The sign of a zero is its end's.
#[test]
#[rustfmt::skip]
fn roundings() {
    for (opcode, a, expected) in [
        (0x10, [-2.5, 7.25],                [-3.0, 7.0]),
        (0x10, [-0.5, 0.5],                 [-1.0, 0.0]),
        (0x10, [-0.0, 0.5],                 [-0.0, 0.0]),
        (0x10, [0.5, BELOW],                [0.0, 0.0]),
        (0x10, [-TINY, TINY],               [-1.0, 0.0]),
        (0x10, [-INF, INF],                 [-INF, INF]),
        (0x11, [-2.5, 7.25],                [-2.0, 8.0]),
        (0x11, [-0.5, 0.5],                 [-0.0, 1.0]),
        (0x11, [-BELOW, -TINY],             [-0.0, -0.0]),
        (0x11, [TINY, ABOVE],               [1.0, 2.0]),
        (0x11, [-INF, -0.0],                [-INF, -0.0]),
        (0x12, [-2.5, 7.25],                [-2.0, 7.0]),
        (0x12, [-0.5, 0.5],                 [-0.0, 0.0]),
        (0x12, [-BELOW, BELOW],             [-0.0, 0.0]),
        (0x12, [-MAX, MAX],                 [-MAX, MAX]),
        (0x13, [-2.5, 7.25],                [-3.0, 7.0]),
        (0x13, [-0.5, 0.5],                 [-1.0, 1.0]),
        (0x13, [-f64::from_bits(0x3fdfffffffffffff), f64::from_bits(0x3fdfffffffffffff)], [-0.0, 0.0]),
        (0x13, [4503599627370495.5, 4503599627370497.0], [4503599627370496.0, 4503599627370497.0]),
        (0x14, [-2.5, 7.25],                [-2.0, 7.0]),
        (0x14, [-0.5, 0.5],                 [-0.0, 0.0]),
        (0x14, [-1.5, 1.5],                 [-2.0, 2.0]),
        (0x14, [0.5, 2.5],                  [0.0, 2.0]),
        (0x14, [0.5 + f64::EPSILON / 2.0, INF], [1.0, INF]),
    ] {
        one(opcode, a, Ok(expected));
    }
}

/// "low: +0 if a.low ≥ 0; a.low if above -1; else -(1-2^-53). High: +0 if a.high ≤ 0; a.high if
/// below 1; else 1-2^-53".
#[test]
#[rustfmt::skip]
fn modf_s_fraction() {
    for (a, expected) in [
        ([-2.0, 2.0],       [-BELOW, BELOW]),
        ([-1.0, 1.0],       [-BELOW, BELOW]),
        ([-BELOW, BELOW],   [-BELOW, BELOW]),
        ([-ABOVE, ABOVE],   [-BELOW, BELOW]),
        ([-0.25, 0.5],      [-0.25, 0.5]),
        ([-TINY, TINY],     [-TINY, TINY]),
        ([0.0, 0.0],        [0.0, 0.0]),
        ([-0.0, -0.0],      [0.0, 0.0]),
        ([-0.0, 0.0],       [0.0, 0.0]),
        ([0.0, -0.0],       [0.0, 0.0]),
        ([0.25, 0.5],       [0.0, 0.5]),
        ([-0.5, -0.25],     [-0.5, 0.0]),
        ([-0.5, -0.0],      [-0.5, 0.0]),
        ([-0.0, 0.5],       [0.0, 0.5]),
        ([3.0, 3.0],        [0.0, BELOW]),
        ([3.25, 3.5],       [0.0, BELOW]),
        ([-3.5, -3.25],     [-BELOW, 0.0]),
        ([-1.0, -1.0],      [-BELOW, 0.0]),
        ([1.0, 1.0],        [0.0, BELOW]),
        ([-INF, INF],       [-BELOW, BELOW]),
        ([INF, INF],        [0.0, BELOW]),
        ([-INF, -INF],      [-BELOW, 0.0]),
        ([-INF, -MAX],      [-BELOW, 0.0]),
        ([-0.5, INF],       [-0.5, BELOW]),
    ] {
        one(0x15, a, Ok(expected));
    }
    assert_eq!(BELOW.to_bits(), 0x3fefffffffffffff);
}

/// "a.low ≥ 0: fabs of low, of high; else a.high ≤ 0: fabs of high, of low; else +0, fmax(fabs low,
/// fabs high)".
#[test]
#[rustfmt::skip]
fn fabs() {
    for (a, expected) in [
        ([-2.0, 1.0],       [0.0, 2.0]),
        ([-1.0, 2.0],       [0.0, 2.0]),
        ([-2.0, 2.0],       [0.0, 2.0]),
        ([1.0, 2.0],        [1.0, 2.0]),
        ([-2.0, -1.0],      [1.0, 2.0]),
        ([-0.0, 2.0],       [0.0, 2.0]),
        ([0.0, -0.0],       [0.0, 0.0]),
        ([-2.0, 0.0],       [0.0, 2.0]),
        ([-2.0, -0.0],      [0.0, 2.0]),
        ([-0.0, -0.0],      [0.0, 0.0]),
        ([-TINY, TINY],     [0.0, TINY]),
        ([-TINY, MAX],      [0.0, MAX]),
        ([-INF, TINY],      [0.0, INF]),
        ([-INF, INF],       [0.0, INF]),
        ([-INF, -INF],      [INF, INF]),
        ([-INF, -MAX],      [MAX, INF]),
    ] {
        one(0x16, a, Ok(expected));
    }
}

/// "negated high, negated low".
#[test]
#[rustfmt::skip]
fn negate() {
    for (a, expected) in [
        ([-1.0, 2.0],       [-2.0, 1.0]),
        ([1.0, 2.0],        [-2.0, -1.0]),
        ([-0.0, 0.0],       [-0.0, 0.0]),
        ([0.0, -0.0],       [0.0, -0.0]),
        ([0.0, 0.0],        [-0.0, -0.0]),
        ([0.0, TINY],       [-TINY, -0.0]),
        ([-INF, MAX],       [-MAX, INF]),
        ([INF, INF],        [-INF, -INF]),
    ] {
        one(0x17, a, Ok(expected));
    }
}

/// "lround of each end". Refusal 21: "answer (sheet: either end's) not in 64 bits".
#[test]
#[rustfmt::skip]
fn lround() {
    let below = TWO_63.next_down();
    for (a, expected) in [
        ([-2.5, 2.5],               Ok([-3, 3])),
        ([-0.5, 0.5],               Ok([-1, 1])),
        ([-0.25, 0.25],             Ok([0, 0])),
        ([-0.0, f64::from_bits(0x3fdfffffffffffff)], Ok([0, 0])),
        ([-TWO_63, below],          Ok([LEAST, 0x7ffffffffffffc00])),
        ([-TWO_63, -TWO_63],        Ok([LEAST, LEAST])),
        ([-TWO_63, TWO_63],         Err(21)),
        ([0.0, TWO_63],             Err(21)),
        ([TWO_63, TWO_63],          Err(21)),
        ([(-TWO_63).next_down(), 0.0], Err(21)),
        ([0.0, INF],                Err(21)),
        ([-INF, 0.0],               Err(21)),
        ([-INF, -INF],              Err(21)),
        ([-INF, INF],               Err(21)),
        ([MAX, INF],                Err(21)),
        ([below, below],            Ok([0x7ffffffffffffc00, 0x7ffffffffffffc00])),
    ] {
        one(0x18, a, expected);
    }
}

/// "function of lows, of highs".
#[test]
#[rustfmt::skip]
fn fmin_and_fmax() {
    for (opcode, a, b, expected) in [
        (0x20, [-1.0, 5.0],   [-2.0, 3.0],   [-2.0, 3.0]),
        (0x20, [1.0, 2.0],    [3.0, 4.0],    [1.0, 2.0]),
        (0x20, [1.0, 4.0],    [2.0, 3.0],    [1.0, 3.0]),
        (0x20, [-INF, INF],   [1.0, 2.0],    [-INF, 2.0]),
        (0x20, [INF, INF],    [-MAX, MAX],   [-MAX, MAX]),
        (0x21, [-1.0, 5.0],   [-2.0, 3.0],   [-1.0, 5.0]),
        (0x21, [1.0, 2.0],    [3.0, 4.0],    [3.0, 4.0]),
        (0x21, [1.0, 4.0],    [2.0, 3.0],    [2.0, 4.0]),
        (0x21, [-INF, INF],   [1.0, 2.0],    [1.0, INF]),
        (0x21, [-INF, -INF],  [-MAX, MAX],   [-MAX, MAX]),
    ] {
        two(opcode, a, b, Ok(expected));
        two(opcode, b, a, Ok(expected));
    }
}

/// W-202: -0 is below +0 in whichever order they come, at each end for itself. As a range, +0 to -0
/// is still one number: "ranges on sheets are still compared as numbers".
#[test]
#[rustfmt::skip]
fn fmin_and_fmax_of_zeros() {
    for (a, b, least, greatest) in [
        ([0.0, 0.0],    [0.0, 0.0],    [0.0, 0.0],    [0.0, 0.0]),
        ([0.0, 0.0],    [0.0, -0.0],   [0.0, -0.0],   [0.0, 0.0]),
        ([0.0, 0.0],    [-0.0, 0.0],   [-0.0, 0.0],   [0.0, 0.0]),
        ([0.0, 0.0],    [-0.0, -0.0],  [-0.0, -0.0],  [0.0, 0.0]),
        ([0.0, -0.0],   [0.0, -0.0],   [0.0, -0.0],   [0.0, -0.0]),
        ([0.0, -0.0],   [-0.0, 0.0],   [-0.0, -0.0],  [0.0, 0.0]),
        ([0.0, -0.0],   [-0.0, -0.0],  [-0.0, -0.0],  [0.0, -0.0]),
        ([-0.0, 0.0],   [-0.0, 0.0],   [-0.0, 0.0],   [-0.0, 0.0]),
        ([-0.0, 0.0],   [-0.0, -0.0],  [-0.0, -0.0],  [-0.0, 0.0]),
        ([-0.0, -0.0],  [-0.0, -0.0],  [-0.0, -0.0],  [-0.0, -0.0]),
        // One end is a zero in both, the other is chosen as before.
        ([0.0, 2.0],    [-0.0, 3.0],   [-0.0, 2.0],   [0.0, 3.0]),
        ([0.0, 3.0],    [-0.0, 2.0],   [-0.0, 2.0],   [0.0, 3.0]),
        ([-2.0, 0.0],   [-3.0, -0.0],  [-3.0, -0.0],  [-2.0, 0.0]),
        ([-3.0, 0.0],   [-2.0, -0.0],  [-3.0, -0.0],  [-2.0, 0.0]),
        ([0.0, INF],    [-0.0, INF],   [-0.0, INF],   [0.0, INF]),
        ([-INF, 0.0],   [-INF, -0.0],  [-INF, -0.0],  [-INF, 0.0]),
        // A zero beside other numbers.
        ([0.0, TINY],   [-TINY, -0.0], [-TINY, -0.0], [0.0, TINY]),
        ([-0.0, TINY],  [-TINY, 0.0],  [-TINY, 0.0],  [-0.0, TINY]),
        ([-TINY, 0.0],  [0.0, TINY],   [-TINY, 0.0],  [0.0, TINY]),
    ] {
        for (a, b) in [(a, b), (b, a)] {
            two(0x20, a, b, Ok(least));
            two(0x21, a, b, Ok(greatest));
        }
    }
}

/// "M = fmax(fabs b.low, fabs b.high). Low: +0 if a.low ≥ 0, else -fmin(fabs a.low, M). High: +0 if
/// a.high ≤ 0, else fmin(a.high, M)". Refusal 20: "an infinite end of a, or b holds zero".
#[test]
#[rustfmt::skip]
fn fmod() {
    for (a, b, expected) in [
        ([-7.5, 7.5],    [1.0, 2.0],     Ok([-2.0, 2.0])),
        ([-7.5, 7.5],    [-2.0, -1.0],   Ok([-2.0, 2.0])),
        ([-7.5, 7.5],    [-3.0, -3.0],   Ok([-3.0, 3.0])),
        ([-7.5, 1.5],    [2.0, 3.0],     Ok([-3.0, 1.5])),
        ([-1.5, 7.5],    [2.0, 3.0],     Ok([-1.5, 3.0])),
        ([-1.5, 1.5],    [2.0, 3.0],     Ok([-1.5, 1.5])),
        ([4.0, 7.5],     [2.0, 3.0],     Ok([0.0, 3.0])),
        ([-7.5, -4.0],   [2.0, 3.0],     Ok([-3.0, 0.0])),
        ([0.0, 0.0],     [2.0, 3.0],     Ok([0.0, 0.0])),
        ([-0.0, -0.0],   [2.0, 3.0],     Ok([0.0, 0.0])),
        ([-0.0, 1.0],    [2.0, 3.0],     Ok([0.0, 1.0])),
        ([-1.0, -0.0],   [2.0, 3.0],     Ok([-1.0, 0.0])),
        ([-1.0, 1.0],    [INF, INF],     Ok([-1.0, 1.0])),
        ([-MAX, MAX],    [-INF, -1.0],   Ok([-MAX, MAX])),
        ([-MAX, MAX],    [TINY, TINY],   Ok([-TINY, TINY])),
        ([-MAX, MAX],    [-TINY, -TINY], Ok([-TINY, TINY])),
    ] {
        two(0x22, a, b, expected);
    }
    for &(a, b) in NO_DIVISION {
        two(0x22, a, b, Err::<[f64; 2], u64>(20));
    }
}

/// Refusal 20, "sheet, an infinite end of a, or b holds zero", of fmod and "on the same terms" of
/// remainder (W-204).
#[rustfmt::skip]
pub const NO_DIVISION: &[([f64; 2], [f64; 2])] = &[
    ([-1.0, 1.0],    [-1.0, 2.0]),
    ([-1.0, 1.0],    [0.0, 2.0]),
    ([-1.0, 1.0],    [-0.0, 2.0]),
    ([-1.0, 1.0],    [-2.0, 0.0]),
    ([-1.0, 1.0],    [-2.0, -0.0]),
    ([-1.0, 1.0],    [-0.0, -0.0]),
    ([-1.0, 1.0],    [-TINY, TINY]),
    ([-1.0, 1.0],    [-INF, INF]),
    ([-1.0, INF],    [1.0, 2.0]),
    ([-INF, 1.0],    [1.0, 2.0]),
    ([INF, INF],     [1.0, 2.0]),
    ([-INF, -INF],   [INF, INF]),
];

/// Ranges of a and b, and the m of W-204's "-m to m": "the smaller, by fmin, of the greatest magnitudes
/// among the ends of a and of b".
#[rustfmt::skip]
pub const REMAINDER: &[([f64; 2], [f64; 2], f64)] = &[
    // b's is the smaller, of either end.
    ([-7.5, 7.5],    [1.0, 2.0],     2.0),
    ([-7.5, 7.5],    [-2.0, -1.0],   2.0),
    ([-7.5, 7.5],    [-3.0, -3.0],   3.0),
    ([-7.5, 1.5],    [2.0, 3.0],     3.0),
    ([-1.5, 7.5],    [2.0, 3.0],     3.0),
    ([-MAX, MAX],    [TINY, TINY],   TINY),
    ([-MAX, MAX],    [-TINY, -TINY], TINY),
    // a's is, of either end.
    ([-1.5, 1.0],    [2.0, 3.0],     1.5),
    ([-1.0, 1.5],    [2.0, 3.0],     1.5),
    ([-1.5, 1.0],    [1.0, 2.0],     1.5),
    ([TINY, TINY],   [-MAX, -MAX],   TINY),
    // Both are one number.
    ([-2.0, 1.0],    [2.0, 2.0],     2.0),
    ([2.0, 2.0],     [-2.0, -1.0],   2.0),
    // What is left may be on the other side of zero than a.
    ([4.0, 7.5],     [2.0, 3.0],     3.0),
    ([-7.5, -4.0],   [2.0, 3.0],     3.0),
    ([1.0, 1.25],    [2.0, 3.0],     1.25),
    ([-1.25, -1.0],  [2.0, 3.0],     1.25),
    ([-0.0, 1.0],    [2.0, 3.0],     1.0),
    ([-1.0, 0.0],    [2.0, 3.0],     1.0),
    // Of a zero, whatever its sign, from -0 to +0.
    ([0.0, 0.0],     [2.0, 3.0],     0.0),
    ([-0.0, -0.0],   [2.0, 3.0],     0.0),
    ([0.0, -0.0],    [-3.0, -2.0],   0.0),
    ([-0.0, 0.0],    [INF, INF],     0.0),
    // b may be infinite.
    ([-1.0, 1.0],    [INF, INF],     1.0),
    ([-1.0, 1.0],    [-INF, -INF],   1.0),
    ([-MAX, MAX],    [-INF, -1.0],   MAX),
    ([-MAX, 1.0],    [TINY, INF],    MAX),
];

/// The low end is m negated, so of +0 it is -0.
#[test]
fn remainder() {
    for &(a, b, m) in REMAINDER {
        two(0x24, a, b, Ok([-m, m]));
    }
    for &(a, b) in NO_DIVISION {
        two(0x24, a, b, Err::<[f64; 2], u64>(20));
    }
}

/// "low: a.low by b.high if a.low < 0, else by b.low. High: a.high by b.high if a.high > 0, else by
/// b.low". Refusal 21: "infinite end of a, or either end's scaling overflows".
#[test]
#[rustfmt::skip]
fn ldexp() {
    let half = 0.5 * MAX;
    for (a, b, expected) in [
        ([1.0, 3.0],     [-1, 2],        Ok([0.5, 12.0])),
        ([-3.0, -1.0],   [-1, 2],        Ok([-12.0, -0.5])),
        ([-3.0, 1.0],    [-1, 2],        Ok([-12.0, 4.0])),
        ([0.0, 3.0],     [-1, 2],        Ok([0.0, 12.0])),
        ([-0.0, 3.0],    [-1, 2],        Ok([-0.0, 12.0])),
        ([-3.0, 0.0],    [-1, 2],        Ok([-12.0, 0.0])),
        ([-3.0, -0.0],   [-1, 2],        Ok([-12.0, -0.0])),
        ([-0.0, 0.0],    [LEAST, MOST],  Ok([-0.0, 0.0])),
        ([0.0, -0.0],    [LEAST, MOST],  Ok([0.0, -0.0])),
        ([1.0, 1.0],     [-1075, -1074], Ok([0.0, TINY])),
        ([1.5, 1.5],     [-1075, -1075], Ok([TINY, TINY])),
        ([-1.0, -1.0],   [-1075, -1074], Ok([-TINY, -0.0])),
        ([1.0, MAX],     [LEAST, LEAST], Ok([0.0, 0.0])),
        ([-MAX, -1.0],   [LEAST, LEAST], Ok([-0.0, -0.0])),
        ([half, half],   [0, 1],         Ok([half, MAX])),
        ([1.0, 1.0],     [1023, 1023],   Ok([2f64.powi(1023), 2f64.powi(1023)])),
        ([TINY, TINY],   [0, 2097],      Ok([TINY, 2f64.powi(1023)])),
        ([TINY, TINY],   [0, 2098],      Err(21)),
        ([1.0, 1.0],     [0, 1024],      Err(21)),
        ([-1.0, 0.0],    [0, 1024],      Err(21)),
        ([0.0, TINY],    [0, MOST],      Err(21)),
        ([-TINY, 0.0],   [0, MOST],      Err(21)),
        ([half, half],   [0, 2],         Err(21)),
        ([-half, -half], [0, 2],         Err(21)),
        ([MAX, MAX],     [1, 1],         Err(21)),
        ([1.0, INF],     [0, 0],         Err(21)),
        ([-INF, 1.0],    [-5, 0],        Err(21)),
        ([INF, INF],     [LEAST, LEAST], Err(21)),
        ([-INF, INF],    [0, 0],         Err(21)),
    ] {
        two(0x23, a, b, expected);
    }
}

/// "low+low, high+high; low-high, high-low". Refusal 21: "answer (sheet: either end's) not in 64
/// bits".
#[test]
#[rustfmt::skip]
fn sums_and_differences() {
    for (opcode, a, b, expected) in [
        (0x30, [-2, 5],         [10, 20],     Ok([8, 25])),
        (0x30, [LEAST, MOST],   [0, 0],       Ok([LEAST, MOST])),
        (0x30, [LEAST + 1, 0],  [-1, 0],      Ok([LEAST, 0])),
        (0x30, [0, MOST - 1],   [0, 1],       Ok([0, MOST])),
        (0x30, [LEAST, LEAST],  [MOST, MOST], Ok([-1, -1])),
        (0x30, [0, MOST],       [0, 1],       Err(21)),
        (0x30, [LEAST, 0],      [-1, 0],      Err(21)),
        (0x30, [MOST, MOST],    [1, 1],       Err(21)),
        (0x30, [LEAST, MOST],   [LEAST, MOST], Err(21)),
        (0x31, [-2, 5],         [10, 20],     Ok([-22, -5])),
        (0x31, [0, 0],          [-1, 1],      Ok([-1, 1])),
        (0x31, [0, 0],          [-MOST, MOST], Ok([-MOST, MOST])),
        (0x31, [-1, -1],        [LEAST, MOST], Ok([LEAST, MOST])),
        (0x31, [LEAST, LEAST],  [LEAST, LEAST], Ok([0, 0])),
        (0x31, [0, 0],          [LEAST, 0],   Err(21)),
        (0x31, [-2, -2],        [0, MOST],    Err(21)),
        (0x31, [LEAST, 0],      [0, 1],       Err(21)),
        (0x31, [0, MOST],       [-1, 0],      Err(21)),
    ] {
        two(opcode, a, b, expected);
    }
}

/// Ranges of a and b, and what a step of doubles makes of them: W-208's range, or the refusal.
pub type Row = ([f64; 2], [f64; 2], Result<[f64; 2], u64>);

/// Half of the largest number's last place, 2^970: MAX and so much is the first that is rounded to infinity.
const EDGE: f64 = f64::from_bits((970 + 1023) << 52);
const BELOW_EDGE: f64 = f64::from_bits(((970 + 1023) << 52) - 1);
/// 2^-53, half of the last place of 1, and 2^-54, half of the last place below 1.
const HALF_PLACE: f64 = f64::EPSILON / 2.0;
const QUARTER_PLACE: f64 = f64::EPSILON / 4.0;
/// 2^512, whose square is beyond the largest.
const ROOT: f64 = f64::from_bits((512 + 1023) << 52);

/// "add low+low to high+high". "Refusals: 20 for an infinite operand (sheet: infinite end), then 21 for
/// an infinite result (sheet: any end sum, difference or product)."
#[rustfmt::skip]
pub const ADD: &[Row] = &[
    ([1.0, 2.0],     [10.0, 20.0],   Ok([11.0, 22.0])),
    ([-2.0, 5.0],    [-1.0, 3.0],    Ok([-3.0, 8.0])),
    ([-5.0, -2.0],   [-3.0, -1.0],   Ok([-8.0, -3.0])),
    ([-5.0, 2.0],    [1.0, 3.0],     Ok([-4.0, 5.0])),
    ([1.0, 1.0],     [-0.0, 0.0],    Ok([1.0, 1.0])),
    // A zero is +0, but for -0 + -0.
    ([-1.0, 1.0],    [1.0, 1.0],     Ok([0.0, 2.0])),
    ([-1.0, 1.0],    [-1.0, -1.0],   Ok([-2.0, 0.0])),
    ([0.0, 0.0],     [-0.0, -0.0],   Ok([0.0, 0.0])),
    ([-0.0, -0.0],   [0.0, 0.0],     Ok([0.0, 0.0])),
    ([-0.0, -0.0],   [-0.0, -0.0],   Ok([-0.0, -0.0])),
    ([-0.0, 0.0],    [-0.0, 0.0],    Ok([-0.0, 0.0])),
    ([0.0, -0.0],    [-0.0, 0.0],    Ok([0.0, 0.0])),
    ([0.0, -0.0],    [0.0, -0.0],    Ok([0.0, -0.0])),
    ([-MAX, -MAX],   [MAX, MAX],     Ok([0.0, 0.0])),
    ([TINY, TINY],   [-TINY, TINY],  Ok([0.0, 2.0 * TINY])),
    // Rounded once, halves to even.
    ([1.0, 1.0],     [HALF_PLACE, f64::EPSILON], Ok([1.0, ABOVE])),
    ([ABOVE, ABOVE], [HALF_PLACE, HALF_PLACE], Ok([1.0 + 2.0 * f64::EPSILON, 1.0 + 2.0 * f64::EPSILON])),
    ([1.0, 1.0],     [-HALF_PLACE, -QUARTER_PLACE], Ok([BELOW, 1.0])),
    ([1.0, 1.0],     [-TINY, TINY],  Ok([1.0, 1.0])),
    // Overflow, of either end.
    ([0.0, MAX],     [0.0, BELOW_EDGE], Ok([0.0, MAX])),
    ([0.0, MAX],     [0.0, EDGE],    Err(21)),
    ([-MAX, 0.0],    [-BELOW_EDGE, 0.0], Ok([-MAX, 0.0])),
    ([-MAX, 0.0],    [-EDGE, 0.0],   Err(21)),
    ([-MAX, 1.0],    [-MAX, 1.0],    Err(21)),
    ([-1.0, MAX],    [-1.0, MAX],    Err(21)),
    ([-MAX, MAX],    [-MAX, MAX],    Err(21)),
    ([MAX, MAX],     [MAX, MAX],     Err(21)),
    // An infinite end, each alone, and both of one sort.
    ([-INF, 1.0],    [0.0, 0.0],     Err(20)),
    ([1.0, INF],     [0.0, 0.0],     Err(20)),
    ([0.0, 0.0],     [-INF, 1.0],    Err(20)),
    ([0.0, 0.0],     [1.0, INF],     Err(20)),
    ([INF, INF],     [1.0, 1.0],     Err(20)),
    ([-INF, -INF],   [INF, INF],     Err(20)),
    // 20 before 21, whichever end it is at.
    ([-MAX, INF],    [-MAX, 0.0],    Err(20)),
    ([-INF, MAX],    [0.0, MAX],     Err(20)),
    ([MAX, MAX],     [MAX, INF],     Err(20)),
    ([-MAX, -MAX],   [-INF, -MAX],   Err(20)),
];

/// "subtract low-high to high-low". Refused as add is.
#[rustfmt::skip]
pub const SUBTRACT: &[Row] = &[
    ([10.0, 20.0],   [1.0, 2.0],     Ok([8.0, 19.0])),
    ([-2.0, 5.0],    [-1.0, 3.0],    Ok([-5.0, 6.0])),
    ([1.0, 2.0],     [10.0, 20.0],   Ok([-19.0, -8.0])),
    ([-5.0, -2.0],   [-3.0, -1.0],   Ok([-4.0, 1.0])),
    ([-1.0, 1.0],    [-1.0, 1.0],    Ok([-2.0, 2.0])),
    ([3.5, 3.5],     [3.5, 3.5],     Ok([0.0, 0.0])),
    // A zero is +0, but for -0 - +0.
    ([0.0, 0.0],     [0.0, 0.0],     Ok([0.0, 0.0])),
    ([0.0, 0.0],     [-0.0, -0.0],   Ok([0.0, 0.0])),
    ([-0.0, -0.0],   [-0.0, -0.0],   Ok([0.0, 0.0])),
    ([-0.0, -0.0],   [0.0, 0.0],     Ok([-0.0, -0.0])),
    ([-0.0, 0.0],    [-0.0, 0.0],    Ok([-0.0, 0.0])),
    ([-0.0, -0.0],   [-0.0, 0.0],    Ok([-0.0, 0.0])),
    ([-0.0, -0.0],   [0.0, -0.0],    Ok([0.0, -0.0])),
    ([MAX, MAX],     [MAX, MAX],     Ok([0.0, 0.0])),
    ([-TINY, TINY],  [TINY, TINY],   Ok([-2.0 * TINY, 0.0])),
    // Rounded once, halves to even.
    ([1.0, 1.0],     [QUARTER_PLACE, HALF_PLACE], Ok([BELOW, 1.0])),
    ([1.0, 1.0],     [-f64::EPSILON, -HALF_PLACE], Ok([1.0, ABOVE])),
    // Overflow, of either end.
    ([0.0, MAX],     [-BELOW_EDGE, 0.0], Ok([0.0, MAX])),
    ([0.0, MAX],     [-EDGE, 0.0],   Err(21)),
    ([-MAX, 0.0],    [0.0, BELOW_EDGE], Ok([-MAX, 0.0])),
    ([-MAX, 0.0],    [0.0, EDGE],    Err(21)),
    ([-MAX, 0.0],    [0.0, MAX],     Err(21)),
    ([0.0, MAX],     [-MAX, 0.0],    Err(21)),
    ([-MAX, MAX],    [-MAX, MAX],    Err(21)),
    // An infinite end, each alone, and both of one sort.
    ([-INF, 1.0],    [0.0, 0.0],     Err(20)),
    ([1.0, INF],     [0.0, 0.0],     Err(20)),
    ([0.0, 0.0],     [-INF, 1.0],    Err(20)),
    ([0.0, 0.0],     [1.0, INF],     Err(20)),
    ([INF, INF],     [INF, INF],     Err(20)),
    ([-INF, INF],    [-INF, INF],    Err(20)),
    // 20 before 21, whichever end it is at.
    ([-MAX, 0.0],    [-INF, MAX],    Err(20)),
    ([-MAX, INF],    [0.0, MAX],     Err(20)),
    ([0.0, MAX],     [-MAX, INF],    Err(20)),
    ([-INF, MAX],    [-MAX, 0.0],    Err(20)),
];

/// "multiply the fmin and the fmax of the four end products". Refused as add is, 21 for any of the four.
#[rustfmt::skip]
pub const MULTIPLY: &[Row] = &[
    // The signs of the ends tell which two of the four they are.
    ([2.0, 3.0],     [4.0, 5.0],     Ok([8.0, 15.0])),
    ([-3.0, -2.0],   [4.0, 5.0],     Ok([-15.0, -8.0])),
    ([2.0, 3.0],     [-5.0, -4.0],   Ok([-15.0, -8.0])),
    ([-3.0, -2.0],   [-5.0, -4.0],   Ok([8.0, 15.0])),
    ([-2.0, 3.0],    [4.0, 5.0],     Ok([-10.0, 15.0])),
    ([-2.0, 3.0],    [-5.0, -4.0],   Ok([-15.0, 10.0])),
    ([2.0, 3.0],     [-5.0, 4.0],    Ok([-15.0, 12.0])),
    ([-3.0, -2.0],   [-5.0, 4.0],    Ok([-12.0, 15.0])),
    ([-2.0, 3.0],    [-5.0, 4.0],    Ok([-15.0, 12.0])),
    ([-3.0, 2.0],    [-5.0, 4.0],    Ok([-12.0, 15.0])),
    ([-3.0, 2.0],    [-4.0, 5.0],    Ok([-15.0, 12.0])),
    ([-2.0, 3.0],    [-4.0, 5.0],    Ok([-12.0, 15.0])),
    ([-1.5, 1.5],    [-1.5, 1.5],    Ok([-2.25, 2.25])),
    // Zeros: -0 below +0, in whichever order they come (W-202).
    ([0.0, 1.0],     [0.0, 1.0],     Ok([0.0, 1.0])),
    ([0.0, 0.0],     [-1.0, 1.0],    Ok([-0.0, 0.0])),
    ([-1.0, 1.0],    [0.0, 0.0],     Ok([-0.0, 0.0])),
    ([-1.0, 1.0],    [-0.0, -0.0],   Ok([-0.0, 0.0])),
    ([-1.0, 0.0],    [0.0, 1.0],     Ok([-1.0, 0.0])),
    ([-1.0, -0.0],   [0.0, 1.0],     Ok([-1.0, -0.0])),
    ([0.0, 1.0],     [-1.0, -0.0],   Ok([-1.0, -0.0])),
    ([-0.0, -0.0],   [1.0, 2.0],     Ok([-0.0, -0.0])),
    ([-0.0, -0.0],   [-2.0, -1.0],   Ok([0.0, 0.0])),
    ([0.0, 0.0],     [-2.0, -1.0],   Ok([-0.0, -0.0])),
    ([-0.0, 0.0],    [1.0, 2.0],     Ok([-0.0, 0.0])),
    ([0.0, -0.0],    [1.0, 1.0],     Ok([-0.0, 0.0])),
    ([-0.0, 0.0],    [-0.0, 0.0],    Ok([-0.0, 0.0])),
    ([-0.0, -0.0],   [-0.0, -0.0],   Ok([0.0, 0.0])),
    ([0.0, 0.0],     [MAX, MAX],     Ok([0.0, 0.0])),
    // Rounded once, halves to even: too small is a zero of the product's sign.
    ([TINY, TINY],   [0.5, 0.75],    Ok([0.0, TINY])),
    ([-TINY, -TINY], [0.25, 0.5],    Ok([-0.0, -0.0])),
    ([-TINY, TINY],  [0.5, 0.5],     Ok([-0.0, 0.0])),
    ([3.0 * TINY, 3.0 * TINY], [0.5, 0.5], Ok([2.0 * TINY, 2.0 * TINY])),
    ([TINY, TINY],   [TINY, TINY],   Ok([0.0, 0.0])),
    ([1.5, 1.5],     [ABOVE, ABOVE], Ok([1.5 + 2.0 * f64::EPSILON, 1.5 + 2.0 * f64::EPSILON])),
    ([BELOW, BELOW], [BELOW, BELOW], Ok([1.0 - f64::EPSILON, 1.0 - f64::EPSILON])),
    // Overflow, of each of the four alone.
    ([0.0, MAX],     [0.0, 1.0],     Ok([0.0, MAX])),
    ([0.0, MAX],     [0.0, ABOVE],   Err(21)),
    ([1.0, ROOT / 2.0], [1.0, ROOT], Ok([1.0, ROOT / 2.0 * ROOT])),
    ([1.0, ROOT],    [1.0, ROOT],    Err(21)),
    ([-ROOT, -1.0],  [-ROOT, -1.0],  Err(21)),
    ([-ROOT, -1.0],  [1.0, ROOT],    Err(21)),
    ([1.0, ROOT],    [-ROOT, -1.0],  Err(21)),
    ([-ROOT, 1.0],   [1.0, ROOT],    Err(21)),
    ([ROOT, ROOT],   [ROOT, ROOT],   Err(21)),
    ([-ROOT, ROOT],  [-ROOT, ROOT],  Err(21)),
    ([0.0, MAX],     [0.0, MAX],     Err(21)),
    // An infinite end, each alone, and beside a zero.
    ([-INF, 1.0],    [0.0, 0.0],     Err(20)),
    ([1.0, INF],     [0.0, 0.0],     Err(20)),
    ([0.0, 0.0],     [-INF, 1.0],    Err(20)),
    ([0.0, 0.0],     [1.0, INF],     Err(20)),
    ([1.0, 2.0],     [1.0, INF],     Err(20)),
    ([-INF, INF],    [-INF, INF],    Err(20)),
    ([INF, INF],     [1.0, 1.0],     Err(20)),
    // 20 before 21, whichever end it is at.
    ([MAX, INF],     [2.0, 2.0],     Err(20)),
    ([-INF, MAX],    [2.0, 2.0],     Err(20)),
    ([2.0, MAX],     [2.0, INF],     Err(20)),
    ([MAX, MAX],     [-INF, MAX],    Err(20)),
];

#[test]
fn sums_differences_and_products_of_doubles() {
    for (opcode, rows) in [(0x40, ADD), (0x41, SUBTRACT), (0x42, MULTIPLY)] {
        for &(a, b, expected) in rows {
            two(opcode, a, b, expected);
        }
    }
}

/// A and B may be one step: the rules take it as two that have its range.
#[test]
#[rustfmt::skip]
fn sums_differences_and_products_of_one_step() {
    for (opcode, a, expected) in [
        (0x40, [-2.0, 3.0],   Ok([-4.0, 6.0])),
        (0x41, [-2.0, 3.0],   Ok([-5.0, 5.0])),
        (0x42, [-2.0, 3.0],   Ok([-6.0, 9.0])),
        (0x40, [-0.0, -0.0],  Ok([-0.0, -0.0])),
        (0x41, [-0.0, -0.0],  Ok([0.0, 0.0])),
        (0x42, [-0.0, -0.0],  Ok([0.0, 0.0])),
        (0x41, [MAX, MAX],    Ok([0.0, 0.0])),
        (0x40, [1.0, MAX],    Err(21)),
        (0x41, [-MAX, MAX],   Err(21)),
        (0x42, [0.0, ROOT],   Err(21)),
        (0x40, [0.0, INF],    Err(20)),
        (0x41, [INF, INF],    Err(20)),
        (0x42, [-INF, 0.0],   Err(20)),
    ] {
        let expected: Result<[f64; 2], u64> = expected;
        one(opcode, a, expected);
    }
}

/// "each end". Refusal 22: "magnitude over 2^53 (sheet: of either end)".
#[test]
#[rustfmt::skip]
fn whole_to_double() {
    let two_53 = TWO_53 as f64;
    for (a, expected) in [
        ([-7, 9],                   Ok([-7.0, 9.0])),
        ([0, 0],                    Ok([0.0, 0.0])),
        ([-TWO_53, TWO_53],         Ok([-two_53, two_53])),
        ([TWO_53 - 1, TWO_53],      Ok([two_53 - 1.0, two_53])),
        ([-TWO_53, 1 - TWO_53],     Ok([-two_53, 1.0 - two_53])),
        ([0, TWO_53 + 1],           Err(22)),
        ([-TWO_53 - 1, 0],          Err(22)),
        ([TWO_53 + 1, TWO_53 + 1],  Err(22)),
        ([TWO_53 + 2, MOST],        Err(22)),
        ([LEAST, LEAST],            Err(22)),
        ([LEAST, 0],                Err(22)),
        ([LEAST, MOST],             Err(22)),
    ] {
        one(0x32, a, expected);
    }
}

/// "P to Q" and "P to P", bit for bit: of the zeros, those that stand there.
#[test]
fn inputs_and_constants() {
    let shown = |line: Line, [low, high]: [u64; 2]| {
        let draft = Draft {
            lines: vec![line],
            words: vec![],
        };
        let outcome = check(Way::Exact, &draft.sheet_call());
        let shown = shown_lines(&outcome)[0];
        assert_eq!(Some(shown.kind), line.kind());
        assert_eq!(shown.ends(), [low, high]);
    };
    for ends in [
        [0.0, 0.0],
        [-0.0, 0.0],
        [0.0, -0.0],
        [-0.0, -0.0],
        [-INF, INF],
        [INF, INF],
        [-TINY, MAX],
    ] {
        shown(Line::input_of(ends), ends.words());
        for p in ends {
            shown(Line::constant(Kind::Double, p.to_bits()), [p, p].words());
        }
    }
    for ends in [[LEAST, MOST], [-1, 0], [MOST, MOST], [LEAST, LEAST]] {
        shown(Line::input_of(ends), ends.words());
        for p in ends {
            shown(Line::constant(Kind::Whole, p as u64), [p, p].words());
        }
    }
}
