//! Every opcode that works on other steps, with the mark and without it where both can be, and the
//! reason in a word.

use super::marks;
use estrenwind_tests::recipes::limits::{INF, MAX, TWO_53};
use estrenwind_tests::recipes::Line;
use estrenwind_tests::reference::recipe::text::MOST_STEPS;
use estrenwind_tests::reference::recipe::{Kind, OPERATIONS};
use std::collections::BTreeSet;

// The steps that the rows work on, by their places. Doubles with the mark:
const ROUNDED: usize = 1; // -3 to 7, floor
const THREE: usize = 2;
const FROM_WHOLE: usize = 4; // -7 to 9, 32
const ONE_TO_EIGHT: usize = 6; // ceil
const ONE_INPUT: usize = 7; // 5 to 5
const ZEROS: usize = 8; // +0 to -0
const LARGEST: usize = 9;

// Doubles without it:
const FRACTIONS: usize = 0; // -2.5 to 7.25
const HALF_TO_EIGHT: usize = 5; // 0.5 to 8
const HALF: usize = 10; // 2.5
const INFINITE: usize = 11;
const DOWN: usize = 12; // -infinity to 7.25
const UP: usize = 13; // -2.5 to infinity
const ALL: usize = 14; // -infinity to infinity
const MINUS_INFINITE: usize = 15;
const FRACTION: usize = 16; // modf's, of ROUNDED
const INTEGRAL_ENDS: usize = 17; // -3 to 7, an input

// Whole numbers, which have it:
const WHOLES: usize = 3; // -7 to 9
const WHOLE: usize = 18; // 5
const POWERS: usize = 19; // 0 to 3
const LARGE: usize = 20; // -2^53 to 2^53

/// Where an operand isn't used.
const NONE: usize = 0;

/// These steps. Marked or not as said above, which is a row of the rule for each.
fn operands() -> Vec<Line> {
    let double = |x: f64| Line::constant(Kind::Double, x.to_bits());
    let lines = vec![
        Line::input_of([-2.5, 7.25]),
        Line::step(0x10, FRACTIONS, NONE),
        double(3.0),
        Line::input_of([-7i64, 9]),
        Line::step(0x32, WHOLES, NONE),
        Line::input_of([0.5, 8.0]),
        Line::step(0x11, HALF_TO_EIGHT, NONE),
        Line::input_of([5.0, 5.0]),
        Line::input_of([0.0, -0.0]),
        double(MAX),
        double(2.5),
        double(INF),
        Line::input_of([-INF, 7.25]),
        Line::input_of([-2.5, INF]),
        Line::input_of([-INF, INF]),
        double(-INF),
        Line::step(0x15, ROUNDED, NONE),
        Line::input_of([-3.0, 7.0]),
        Line::constant(Kind::Whole, 5),
        Line::input_of([0i64, 3]),
        Line::input_of([-TWO_53, TWO_53]),
    ];
    let unmarked = [
        FRACTIONS,
        HALF_TO_EIGHT,
        HALF,
        INFINITE,
        DOWN,
        UP,
        ALL,
        MINUS_INFINITE,
        FRACTION,
        INTEGRAL_ENDS,
    ];
    let expected: Vec<bool> = (0..lines.len())
        .map(|step| !unmarked.contains(&step))
        .collect();
    assert_eq!(marks(&lines), expected);
    lines
}

const YES: bool = true;
const NO: bool = false;

/// Opcode, A, B, whether it has the mark, and why.
type Row = (u8, usize, usize, bool, &'static str);

#[rustfmt::skip]
const ROWS: &[Row] = &[
    // "10 to 14 when both ends are finite"
    (0x10, FRACTIONS,      NONE,           YES, "both ends finite"),
    (0x11, FRACTIONS,      NONE,           YES, "both ends finite"),
    (0x12, FRACTIONS,      NONE,           YES, "both ends finite"),
    (0x13, FRACTIONS,      NONE,           YES, "both ends finite"),
    (0x14, FRACTIONS,      NONE,           YES, "both ends finite"),
    (0x10, ROUNDED,        NONE,           YES, "both ends finite"),
    (0x11, HALF,           NONE,           YES, "both ends finite"),
    (0x12, LARGEST,        NONE,           YES, "both ends finite"),
    (0x13, ZEROS,          NONE,           YES, "both ends finite"),
    (0x14, FRACTION,       NONE,           YES, "both ends finite"),
    (0x10, DOWN,           NONE,           NO,  "low end infinite"),
    (0x11, DOWN,           NONE,           NO,  "low end infinite"),
    (0x12, DOWN,           NONE,           NO,  "low end infinite"),
    (0x13, DOWN,           NONE,           NO,  "low end infinite"),
    (0x14, DOWN,           NONE,           NO,  "low end infinite"),
    (0x10, UP,             NONE,           NO,  "high end infinite"),
    (0x11, UP,             NONE,           NO,  "high end infinite"),
    (0x12, UP,             NONE,           NO,  "high end infinite"),
    (0x13, UP,             NONE,           NO,  "high end infinite"),
    (0x14, UP,             NONE,           NO,  "high end infinite"),
    (0x10, ALL,            NONE,           NO,  "both ends infinite"),
    (0x11, ALL,            NONE,           NO,  "both ends infinite"),
    (0x12, ALL,            NONE,           NO,  "both ends infinite"),
    (0x13, ALL,            NONE,           NO,  "both ends infinite"),
    (0x14, ALL,            NONE,           NO,  "both ends infinite"),
    (0x10, INFINITE,       NONE,           NO,  "one number, infinite"),
    (0x11, MINUS_INFINITE, NONE,           NO,  "one number, infinite"),
    // "all others lack it": modf's fraction
    (0x15, FRACTIONS,      NONE,           NO,  "15 lacks it"),
    (0x15, ROUNDED,        NONE,           NO,  "15 lacks it, of integers too"),
    (0x15, THREE,          NONE,           NO,  "15 lacks it, of an integer too"),
    (0x15, ZEROS,          NONE,           NO,  "15 lacks it, of zero too"),
    (0x15, INFINITE,       NONE,           NO,  "15 lacks it"),
    // "fabs and negate keep the mark"
    (0x16, ROUNDED,        NONE,           YES, "kept"),
    (0x16, THREE,          NONE,           YES, "kept"),
    (0x16, FROM_WHOLE,     NONE,           YES, "kept"),
    (0x16, ZEROS,          NONE,           YES, "kept"),
    (0x16, FRACTIONS,      NONE,           NO,  "not there to keep"),
    (0x16, HALF,           NONE,           NO,  "not there to keep"),
    (0x16, INFINITE,       NONE,           NO,  "not there to keep"),
    (0x16, INTEGRAL_ENDS,  NONE,           NO,  "integral ends are no mark"),
    (0x17, ROUNDED,        NONE,           YES, "kept"),
    (0x17, ONE_INPUT,      NONE,           YES, "kept"),
    (0x17, LARGEST,        NONE,           YES, "kept"),
    (0x17, ZEROS,          NONE,           YES, "kept"),
    (0x17, FRACTIONS,      NONE,           NO,  "not there to keep"),
    (0x17, DOWN,           NONE,           NO,  "not there to keep"),
    (0x17, INTEGRAL_ENDS,  NONE,           NO,  "integral ends are no mark"),
    // "every whole-kind step"
    (0x18, FRACTIONS,      NONE,           YES, "whole kind"),
    (0x18, ROUNDED,        NONE,           YES, "whole kind"),
    (0x18, HALF,           NONE,           YES, "whole kind"),
    (0x30, WHOLES,         WHOLE,          YES, "whole kind"),
    (0x30, WHOLES,         WHOLES,         YES, "whole kind"),
    (0x31, WHOLE,          WHOLES,         YES, "whole kind"),
    (0x31, WHOLES,         WHOLES,         YES, "whole kind"),
    // "fmin, fmax and fmod have it when both operands do": all four pairs, of ranges and of numbers
    (0x20, ROUNDED,        FROM_WHOLE,     YES, "both"),
    (0x20, ROUNDED,        FRACTIONS,      NO,  "A alone"),
    (0x20, FRACTIONS,      ROUNDED,        NO,  "B alone"),
    (0x20, FRACTIONS,      HALF_TO_EIGHT,  NO,  "neither"),
    (0x20, THREE,          ZEROS,          YES, "both"),
    (0x20, ROUNDED,        ROUNDED,        YES, "both, one step"),
    (0x20, FRACTIONS,      FRACTIONS,      NO,  "neither, one step"),
    (0x20, ROUNDED,        INFINITE,       NO,  "A alone, and always the smaller"),
    (0x20, INFINITE,       ROUNDED,        NO,  "B alone, and always the smaller"),
    (0x20, ROUNDED,        MINUS_INFINITE, NO,  "A alone"),
    (0x20, ROUNDED,        INTEGRAL_ENDS,  NO,  "A alone"),
    (0x20, INTEGRAL_ENDS,  INTEGRAL_ENDS,  NO,  "neither"),
    (0x21, ROUNDED,        FROM_WHOLE,     YES, "both"),
    (0x21, ROUNDED,        FRACTIONS,      NO,  "A alone"),
    (0x21, FRACTIONS,      ROUNDED,        NO,  "B alone"),
    (0x21, FRACTIONS,      HALF_TO_EIGHT,  NO,  "neither"),
    (0x21, ONE_INPUT,      LARGEST,        YES, "both"),
    (0x21, ROUNDED,        ROUNDED,        YES, "both, one step"),
    (0x21, FRACTIONS,      FRACTIONS,      NO,  "neither, one step"),
    (0x21, ROUNDED,        MINUS_INFINITE, NO,  "A alone, and always the larger"),
    (0x21, MINUS_INFINITE, ROUNDED,        NO,  "B alone, and always the larger"),
    (0x21, ROUNDED,        INFINITE,       NO,  "A alone"),
    (0x21, INFINITE,       MINUS_INFINITE, NO,  "neither"),
    (0x22, ROUNDED,        ONE_TO_EIGHT,   YES, "both"),
    (0x22, ROUNDED,        HALF_TO_EIGHT,  NO,  "A alone"),
    (0x22, FRACTIONS,      ONE_TO_EIGHT,   NO,  "B alone"),
    (0x22, FRACTIONS,      HALF_TO_EIGHT,  NO,  "neither"),
    (0x22, LARGEST,        THREE,          YES, "both"),
    (0x22, ONE_TO_EIGHT,   ONE_TO_EIGHT,   YES, "both, one step"),
    (0x22, HALF_TO_EIGHT,  HALF_TO_EIGHT,  NO,  "neither, one step"),
    (0x22, ROUNDED,        INFINITE,       NO,  "A alone, and always itself"),
    (0x22, ROUNDED,        HALF,           NO,  "A alone"),
    (0x22, ZEROS,          HALF,           NO,  "A alone, and always zero"),
    // W-204: "marked when both operands are"
    (0x24, ROUNDED,        ONE_TO_EIGHT,   YES, "both"),
    (0x24, ROUNDED,        HALF_TO_EIGHT,  NO,  "A alone"),
    (0x24, FRACTIONS,      ONE_TO_EIGHT,   NO,  "B alone"),
    (0x24, FRACTIONS,      HALF_TO_EIGHT,  NO,  "neither"),
    (0x24, LARGEST,        THREE,          YES, "both"),
    (0x24, ONE_TO_EIGHT,   ONE_TO_EIGHT,   YES, "both, one step"),
    (0x24, HALF_TO_EIGHT,  HALF_TO_EIGHT,  NO,  "neither, one step"),
    (0x24, ZEROS,          THREE,          YES, "both, and always zero"),
    (0x24, ROUNDED,        INFINITE,       NO,  "A alone, and always itself"),
    (0x24, ROUNDED,        HALF,           NO,  "A alone"),
    (0x24, ZEROS,          HALF,           NO,  "A alone, and always zero"),
    // W-208: "Marked when both operands are"
    (0x40, ROUNDED,        FROM_WHOLE,     YES, "both"),
    (0x40, ROUNDED,        FRACTIONS,      NO,  "A alone"),
    (0x40, FRACTIONS,      ROUNDED,        NO,  "B alone"),
    (0x40, FRACTIONS,      HALF_TO_EIGHT,  NO,  "neither"),
    (0x40, THREE,          ZEROS,          YES, "both"),
    (0x40, ROUNDED,        ROUNDED,        YES, "both, one step"),
    (0x40, FRACTIONS,      FRACTIONS,      NO,  "neither, one step"),
    (0x40, LARGEST,        THREE,          YES, "both"),
    (0x40, LARGEST,        HALF,           NO,  "A alone, and always the largest"),
    (0x40, HALF,           HALF,           NO,  "neither, and always 5"),
    (0x40, ROUNDED,        INTEGRAL_ENDS,  NO,  "A alone"),
    (0x40, INTEGRAL_ENDS,  INTEGRAL_ENDS,  NO,  "neither, one step"),
    (0x41, ROUNDED,        FROM_WHOLE,     YES, "both"),
    (0x41, ROUNDED,        FRACTIONS,      NO,  "A alone"),
    (0x41, FRACTIONS,      ROUNDED,        NO,  "B alone"),
    (0x41, FRACTIONS,      HALF_TO_EIGHT,  NO,  "neither"),
    (0x41, THREE,          ZEROS,          YES, "both"),
    (0x41, ROUNDED,        ROUNDED,        YES, "both, one step"),
    (0x41, FRACTIONS,      FRACTIONS,      NO,  "neither, one step, and always zero"),
    (0x41, LARGEST,        THREE,          YES, "both"),
    (0x41, LARGEST,        HALF,           NO,  "A alone, and always the largest"),
    (0x41, HALF,           HALF,           NO,  "neither, and always zero"),
    (0x41, ROUNDED,        INTEGRAL_ENDS,  NO,  "A alone"),
    (0x41, INTEGRAL_ENDS,  INTEGRAL_ENDS,  NO,  "neither, one step"),
    (0x42, ROUNDED,        FROM_WHOLE,     YES, "both"),
    (0x42, ROUNDED,        FRACTIONS,      NO,  "A alone"),
    (0x42, FRACTIONS,      ROUNDED,        NO,  "B alone"),
    (0x42, FRACTIONS,      HALF_TO_EIGHT,  NO,  "neither"),
    (0x42, THREE,          ZEROS,          YES, "both"),
    (0x42, ROUNDED,        ROUNDED,        YES, "both, one step"),
    (0x42, FRACTIONS,      FRACTIONS,      NO,  "neither, one step"),
    (0x42, LARGEST,        ZEROS,          YES, "both"),
    (0x42, ZEROS,          FRACTIONS,      NO,  "A alone, and always zero"),
    (0x42, HALF,           ZEROS,          NO,  "B alone, and always zero"),
    (0x42, HALF,           HALF,           NO,  "neither"),
    (0x42, ROUNDED,        INTEGRAL_ENDS,  NO,  "A alone"),
    (0x42, INTEGRAL_ENDS,  INTEGRAL_ENDS,  NO,  "neither, one step"),
    // "all others lack it": ldexp
    (0x23, FRACTIONS,      POWERS,         NO,  "23 lacks it"),
    (0x23, ROUNDED,        POWERS,         NO,  "23 lacks it, though no power is below 0"),
    (0x23, ROUNDED,        WHOLES,         NO,  "23 lacks it"),
    (0x23, THREE,          WHOLE,          NO,  "23 lacks it, of an integer too"),
    (0x23, ZEROS,          WHOLES,         NO,  "23 lacks it, of zero too"),
    // "32"
    (0x32, WHOLES,         NONE,           YES, "32"),
    (0x32, WHOLE,          NONE,           YES, "32"),
    (0x32, POWERS,         NONE,           YES, "32"),
    (0x32, LARGE,          NONE,           YES, "32, up to 2^53"),
];

/// Right behind the operands, and as the last of 128 steps, behind numbers that it doesn't work on.
#[test]
fn every_row_of_the_rule() {
    let operands = operands();
    for &(opcode, a, b, mark, why) in ROWS {
        for steps in [operands.len() + 1, MOST_STEPS] {
            let mut lines = operands.clone();
            let number = if mark { 0.5f64 } else { 1.0 };
            lines.resize(steps - 1, Line::constant(Kind::Double, number.to_bits()));
            lines.push(Line::step(opcode, a, b));
            let marks = marks(&lines);
            assert_eq!(marks[steps - 1], mark, "{opcode:02x} {a} {b}: {why}");
        }
    }
}

/// The rows are of every opcode that works on others, with each mark that it can have; and of those
/// that ask for both operands' marks, with every pair of them.
#[test]
fn no_row_is_left_out() {
    let operands = marks(&operands());
    for operation in OPERATIONS.iter().filter(|operation| operation.uses_a()) {
        let opcode = operation.opcode;
        let rows = ROWS.iter().filter(|&&(of, ..)| of == opcode);
        let met: BTreeSet<bool> = rows.clone().map(|&(.., mark, _)| mark).collect();
        let expected: &[bool] = match opcode {
            0x18 | 0x30 | 0x31 | 0x32 => &[true],
            0x15 | 0x23 => &[false],
            _ => &[false, true],
        };
        assert!(met.iter().eq(expected), "{opcode:02x}: {met:?}");
        if matches!(opcode, 0x20..=0x22 | 0x24 | 0x40..=0x42) {
            let pairs: BTreeSet<[bool; 2]> = rows
                .map(|&(_, a, b, ..)| [operands[a], operands[b]])
                .collect();
            assert_eq!(pairs.len(), 4, "{opcode:02x}");
        }
    }
}
