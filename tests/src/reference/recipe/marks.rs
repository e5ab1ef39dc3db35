//! The mark of a step's range, request W-203: the sheet says that a value has no fraction. A step
//! without it may have one or not.

use super::operations::{Kind, Operation, Way};
use super::ranges::{is_infinite, Range};
use crate::reference::{short, whole, BINARY64};

/// Whether a step with this range has the mark. `a` and `b` are its operands' marks; that of one that
/// isn't used doesn't matter.
pub fn is_marked(way: Way, operation: &Operation, range: Range, a: bool, b: bool) -> bool {
    match operation.opcode {
        // "every whole-kind step"
        _ if operation.kind == Kind::Whole => true,
        // "32", which is a whole number as a double
        0x32 => true,
        // "a constant or one-number input that is finite and integral"
        0x01 | 0x03 => {
            range.is_one_number(way, operation.kind) && is_finite_and_integral(way, range.low)
        }
        // "10 to 14 when both ends are finite"
        0x10..=0x14 => !is_infinite(range.low) && !is_infinite(range.high),
        // "fabs and negate keep the mark"
        0x16 | 0x17 => a,
        // "fmin, fmax and fmod have it when both operands do", and W-204's remainder and W-208's sums,
        // differences and products, "marked when both operands are"
        0x20..=0x22 | 0x24 | 0x40..=0x42 => a && b,
        // "all others lack it": modf's fraction and ldexp, even where they can only be integers
        _ => false,
    }
}

fn is_finite_and_integral(way: Way, word: u64) -> bool {
    match way {
        Way::Exact => whole::is_finite_and_integral(&BINARY64, word),
        Way::Short | Way::FirstOfEqual => short::whole::is_finite_and_integral(&BINARY64, word),
    }
}
