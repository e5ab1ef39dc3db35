//! The run of a recipe over a frame: refusals 10 to 17, 40, 30 to 32, and 20 to 22, in that order.

use super::operations::{Kind, Source, Way};
use super::text::Step;
use super::{frame, text, Refusal};

/// The kind of a step's value, and its 64 bits.
#[derive(Clone, Copy, Debug, PartialEq, Eq)]
pub struct StepValue {
    pub kind: Kind,
    pub word: u64,
}

/// Every step's value, `lent` being the words of memory that the caller lends; or the refusal.
pub fn run(way: Way, text: &[u8], frame: &[u8], lent: usize) -> Result<Vec<StepValue>, Refusal> {
    let steps = text::steps(way, text)?;
    if lent < steps.len() {
        return Err(Refusal::whole_call(40));
    }
    over(way, &steps, frame)
}

/// Every step's value over a frame, for a recipe that is read and has its memory.
pub fn over(way: Way, steps: &[Step], frame: &[u8]) -> Result<Vec<StepValue>, Refusal> {
    let inputs = frame::inputs(way, steps, frame)?;
    values(way, steps, &inputs)
}

/// Every step's value, steps in order.
fn values(way: Way, steps: &[Step], inputs: &[u64]) -> Result<Vec<StepValue>, Refusal> {
    let mut inputs = inputs.iter();
    let mut values: Vec<StepValue> = Vec::with_capacity(steps.len());
    for step in steps {
        let at = |place: usize| values[place].word;
        let word = match &step.operation.source {
            Source::Input => Ok(*inputs.next().expect("a word for every input")),
            Source::Constant => Ok(step.p),
            Source::One { function, .. } => function.value(way, at(step.a), 0),
            Source::Two { function, .. } => function.value(way, at(step.a), at(step.b)),
        };
        let word = word.map_err(|number| Refusal::at(number, values.len()))?;
        let kind = step.operation.kind;
        values.push(StepValue { kind, word });
    }
    Ok(values)
}
