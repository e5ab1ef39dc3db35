//! Why a recipe is turned down: request W-205. Where the sheet is refused with 20, 21 or 22, this
//! gives the step, the step of an operand, and the code of a fact about the operands' ranges.

use super::operations::{Function, Kind, Operation, Way};
use super::ranges::{is_infinite, least_and_greatest, pairs_of_ends, scaling_powers, Range};
use super::text::Step;
use super::{sheet, text, Refusal};
use crate::reference::BINARY64;

/// The first step that the sheet refuses, the step of the operand that is to blame, and why.
#[derive(Clone, Copy, Debug, PartialEq, Eq)]
pub struct Explanation {
    pub step: usize,
    pub operand: usize,
    pub code: u8,
}

/// The field that names the operand.
#[derive(Clone, Copy, Debug, PartialEq, Eq)]
pub enum Operand {
    A,
    B,
}

/// Whether something is true of a step's operands, by its function and their ranges a and b.
type Fact = fn(&Function, Way, Range, Range) -> bool;

/// A fact for which a step with this opcode is refused.
pub struct Reason {
    pub code: u8,
    pub opcode: u8,
    pub operand: Operand,
    fact: Fact,
}

const fn reason(code: u8, opcode: u8, operand: Operand, fact: Fact) -> Reason {
    Reason {
        code,
        opcode,
        operand,
        fact,
    }
}

use Operand::{A, B};

const ZERO: u64 = 0;

fn b_holds_zero(_: &Function, way: Way, _: Range, b: Range) -> bool {
    b.holds(way, Kind::Double, ZERO)
}

fn a_low_is_infinite(_: &Function, _: Way, a: Range, _: Range) -> bool {
    is_infinite(a.low)
}

fn a_high_is_infinite(_: &Function, _: Way, a: Range, _: Range) -> bool {
    is_infinite(a.high)
}

fn b_low_is_infinite(_: &Function, _: Way, _: Range, b: Range) -> bool {
    is_infinite(b.low)
}

fn b_high_is_infinite(_: &Function, _: Way, _: Range, b: Range) -> bool {
    is_infinite(b.high)
}

/// Whether finite operands have a sum, a difference or a product that is infinite.
fn overflows(function: &Function, way: Way, x: u64, y: u64) -> bool {
    function.value(way, x, y) == Err(21)
}

/// The end products as numbers, infinities among them; none where an end is infinite.
fn end_products(product: &Function, way: Way, a: Range, b: Range) -> Option<Range> {
    let mut products = Vec::with_capacity(4);
    for [x, y] in pairs_of_ends(a, b) {
        products.push(match product.value(way, x, y) {
            Ok(word) => word,
            Err(21) => BINARY64.infinity() | ((x ^ y) & BINARY64.sign_bit()),
            Err(_) => return None,
        });
    }
    Some(least_and_greatest(way, &products))
}

/// "Codes in order": of those that share an opcode, the first that is true is given. "For 06, 07
/// and ldexp the operand given is A." "Step 24 shares 01 to 03." W-208: "0e to 11, an infinite end (a
/// low, a high, b low, b high), and 12, 13, low and high answer overflows, naming A".
#[rustfmt::skip]
pub static REASONS: [Reason; 36] = [
    // "divisor range holds zero"
    reason(0x01, 0x22, B, b_holds_zero),
    reason(0x01, 0x24, B, b_holds_zero),
    // "dividend's low, high end infinite"
    reason(0x02, 0x22, A, a_low_is_infinite),
    reason(0x02, 0x24, A, a_low_is_infinite),
    reason(0x03, 0x22, A, a_high_is_infinite),
    reason(0x03, 0x24, A, a_high_is_infinite),
    // "lround of the low, high end"
    reason(0x04, 0x18, A, |lround, way, a, _| lround.value(way, a.low, 0).is_err()),
    reason(0x05, 0x18, A, |lround, way, a, _| lround.value(way, a.high, 0).is_err()),
    // "whole answer's low, high end"
    reason(0x06, 0x30, A, |sum, way, a, b| sum.value(way, a.low, b.low).is_err()),
    reason(0x06, 0x31, A, |difference, way, a, b| difference.value(way, a.low, b.high).is_err()),
    reason(0x07, 0x30, A, |sum, way, a, b| sum.value(way, a.high, b.high).is_err()),
    reason(0x07, 0x31, A, |difference, way, a, b| difference.value(way, a.high, b.low).is_err()),
    // "ldexp operand's low, high end infinite"
    reason(0x08, 0x23, A, a_low_is_infinite),
    reason(0x09, 0x23, A, a_high_is_infinite),
    // "ldexp's low, high end overflows": an infinite end is scaled to itself, which is no overflow
    reason(0x0a, 0x23, A, |ldexp, way, a, b| {
        let [by_low, _] = scaling_powers(way, a, b);
        ldexp.value(way, a.low, by_low).is_err()
    }),
    reason(0x0b, 0x23, A, |ldexp, way, a, b| {
        let [_, by_high] = scaling_powers(way, a, b);
        ldexp.value(way, a.high, by_high).is_err()
    }),
    // "whole too big at its low, high end"
    reason(0x0c, 0x32, A, |to_double, way, a, _| to_double.value(way, a.low, 0).is_err()),
    reason(0x0d, 0x32, A, |to_double, way, a, _| to_double.value(way, a.high, 0).is_err()),
    // "an infinite end (a low, a high, b low, b high)"
    reason(0x0e, 0x40, A, a_low_is_infinite),
    reason(0x0e, 0x41, A, a_low_is_infinite),
    reason(0x0e, 0x42, A, a_low_is_infinite),
    reason(0x0f, 0x40, A, a_high_is_infinite),
    reason(0x0f, 0x41, A, a_high_is_infinite),
    reason(0x0f, 0x42, A, a_high_is_infinite),
    reason(0x10, 0x40, B, b_low_is_infinite),
    reason(0x10, 0x41, B, b_low_is_infinite),
    reason(0x10, 0x42, B, b_low_is_infinite),
    reason(0x11, 0x40, B, b_high_is_infinite),
    reason(0x11, 0x41, B, b_high_is_infinite),
    reason(0x11, 0x42, B, b_high_is_infinite),
    // "low and high answer overflows, naming A"
    reason(0x12, 0x40, A, |sum, way, a, b| overflows(sum, way, a.low, b.low)),
    reason(0x12, 0x41, A, |difference, way, a, b| overflows(difference, way, a.low, b.high)),
    reason(0x12, 0x42, A, |product, way, a, b| {
        end_products(product, way, a, b).is_some_and(|answer| is_infinite(answer.low))
    }),
    reason(0x13, 0x40, A, |sum, way, a, b| overflows(sum, way, a.high, b.high)),
    reason(0x13, 0x41, A, |difference, way, a, b| overflows(difference, way, a.high, b.low)),
    reason(0x13, 0x42, A, |product, way, a, b| {
        end_products(product, way, a, b).is_some_and(|answer| is_infinite(answer.high))
    }),
];

/// The reasons that are true of a step on operands with the ranges a and b, in code order.
pub fn reasons(
    way: Way,
    operation: &'static Operation,
    a: Range,
    b: Range,
) -> impl Iterator<Item = &'static Reason> {
    let of_opcode = |reason: &&Reason| reason.opcode == operation.opcode;
    let is_true = move |reason: &&Reason| {
        let function = operation.function().expect("it works on other steps");
        (reason.fact)(function, way, a, b)
    };
    REASONS.iter().filter(of_opcode).filter(is_true)
}

/// Why the sheet is refused with 20, 21 or 22; nothing where it is passed. "A recipe refused
/// earlier gives that refusal."
pub fn explain(way: Way, text: &[u8]) -> Result<Option<Explanation>, Refusal> {
    let steps = text::steps(way, text)?;
    let refused = sheet::ranges(way, &steps).err();
    Ok(refused.map(|refusal| first_reason(way, &steps[..=refusal.place as usize])))
}

/// "The fact named by the code is true of the ranges of earlier steps, and no code before it for
/// that opcode is." The last of these steps is refused, and none before it.
fn first_reason(way: Way, steps: &[Step]) -> Explanation {
    let (refused, earlier) = steps.split_last().expect("a step is refused");
    let ranges = sheet::ranges(way, earlier).expect("no earlier step is refused");
    // An operand that isn't used is step 0.
    let [a, b] = [refused.a, refused.b].map(|operand| ranges[operand].range);
    let reason = reasons(way, refused.operation, a, b).next();
    let reason = reason.expect("a step is refused for a reason");
    Explanation {
        step: earlier.len(),
        operand: match reason.operand {
            A => refused.a,
            B => refused.b,
        },
        code: reason.code,
    }
}
