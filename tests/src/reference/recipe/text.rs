//! Recipe text to steps: refusals 10 to 17.

use super::operations::{Operation, Source, Way};
use super::{is_digit, number, Refusal};
use std::cmp::Ordering;

/// Opcode 2 digits, A 2, B 2, P 16, Q 16, and a line feed.
pub const LINE: usize = 39;
pub const MOST_STEPS: usize = 128;
pub const MOST_INPUTS: usize = 16;

/// A step that nothing is wrong with. A field that it doesn't use is 0.
pub struct Step {
    pub operation: &'static Operation,
    pub a: usize,
    pub b: usize,
    pub p: u64,
    pub q: u64,
}

/// The steps of a text: refusal 10, then line by line 11 to 17.
pub fn steps(way: Way, text: &[u8]) -> Result<Vec<Step>, Refusal> {
    if text.is_empty() || !text.len().is_multiple_of(LINE) || text.len() > MOST_STEPS * LINE {
        return Err(Refusal::whole_call(10));
    }
    let mut steps = Vec::with_capacity(MOST_STEPS);
    for line in text.chunks_exact(LINE) {
        let step = step(way, line, &steps);
        steps.push(step.map_err(|number| Refusal::at(number, steps.len()))?);
    }
    Ok(steps)
}

/// The step that a line says, after the earlier ones, or the number of its first refusal.
fn step(way: Way, line: &[u8], earlier: &[Step]) -> Result<Step, u64> {
    let (digits, end) = line.split_at(LINE - 1);
    if !digits.iter().all(|&byte| is_digit(byte)) || end != b"\n" {
        return Err(11);
    }
    let opcode = number(&digits[0..2]) as u8;
    let a = number(&digits[2..4]);
    let b = number(&digits[4..6]);
    let p = number(&digits[6..22]);
    let q = number(&digits[22..38]);

    let operation = Operation::of_opcode(opcode).ok_or(12u64)?;

    let zero_or_used = |field: u64, used: bool| used || field == 0;
    if !zero_or_used(a, operation.uses_a())
        || !zero_or_used(b, operation.uses_b())
        || !zero_or_used(p, operation.uses_p())
        || !zero_or_used(q, operation.uses_q())
    {
        return Err(13);
    }

    let (a, b) = (a as usize, b as usize);
    let operands: Vec<_> = [a, b]
        .into_iter()
        .zip(operation.source.operands())
        .collect();
    if operands.iter().any(|&(place, _)| place >= earlier.len()) {
        return Err(14);
    }
    if operands
        .iter()
        .any(|&(place, kind)| earlier[place].operation.kind != kind)
    {
        return Err(15);
    }

    let kind = operation.kind;
    let wrong = match operation.source {
        Source::Input => {
            kind.is_nan(p) || kind.is_nan(q) || kind.compare(way, p, q) == Ordering::Greater
        }
        Source::Constant => kind.is_nan(p),
        Source::One { .. } | Source::Two { .. } => false,
    };
    if wrong {
        return Err(16);
    }

    let inputs = earlier.iter().filter(|step| step.operation.is_input());
    if operation.is_input() && inputs.count() == MOST_INPUTS {
        return Err(17);
    }

    Ok(Step {
        operation,
        a,
        b,
        p,
        q,
    })
}
