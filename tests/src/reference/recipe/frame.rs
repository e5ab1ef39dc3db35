//! A frame to the values of the inputs: refusals 30, 31 and 32.

use super::operations::Way;
use super::ranges::Range;
use super::text::Step;
use super::{is_digit, number, Refusal};

/// Digits of an input.
pub const DIGITS: usize = 16;

/// The inputs' words, in step order.
pub fn inputs(way: Way, steps: &[Step], frame: &[u8]) -> Result<Vec<u64>, Refusal> {
    let declared: Vec<(usize, &Step)> = steps
        .iter()
        .enumerate()
        .filter(|(_, step)| step.operation.is_input())
        .collect();
    if frame.len() != DIGITS * declared.len() {
        return Err(Refusal::whole_call(30));
    }
    if !frame.iter().all(|&byte| is_digit(byte)) {
        return Err(Refusal::whole_call(31));
    }
    let words: Vec<u64> = frame.chunks_exact(DIGITS).map(number).collect();
    for ((place, step), &word) in declared.into_iter().zip(&words) {
        let declared = Range {
            low: step.p,
            high: step.q,
        };
        if !declared.holds(way, step.operation.kind, word) {
            return Err(Refusal::at(32, place));
        }
    }
    Ok(words)
}
