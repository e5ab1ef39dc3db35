//! A recipe with names for its steps, whichever form it was written in.

use crate::number;
use estrenwind::{Kind, Operation, Step};

/// A recipe that the library reads.
#[derive(Clone, Debug)]
pub struct Recipe {
    /// The name of its file, for messages.
    pub file: String,
    /// The lines that the library reads.
    pub text: Vec<u8>,
    /// The same as values.
    pub steps: Vec<Step>,
    /// What each step is called: its name in the text form, s and its number where it has none.
    pub names: Vec<String>,
}

impl Recipe {
    /// The steps that take their values from the frame, in their order.
    pub fn inputs(&self) -> Vec<usize> {
        let is_input = |&k: &usize| self.steps[k].operation.is_input();
        (0..self.steps.len()).filter(is_input).collect()
    }

    pub fn kind(&self, k: usize) -> Kind {
        self.steps[k].operation.gives()
    }

    /// What a step is, as the text form writes it after its name: `fmax w 1`, `input 0 .. 1`, `constant whole 3`.
    pub fn operation_text(&self, k: usize) -> String {
        let step = &self.steps[k];
        let mut text = step.operation.name().to_owned();
        for operand in step.operands() {
            text.push(' ');
            text.push_str(&self.names[operand]);
        }
        let kind = step.operation.gives();
        if step.operation.is_input() {
            text.push(' ');
            text.push_str(&range_text(kind, step.p, step.q));
        } else if step.operation.is_constant() {
            text.push(' ');
            text.push_str(&number::word_text(kind, step.p));
        }
        text
    }

    /// The first steps alone, as a recipe.
    pub fn front(&self, count: usize) -> Vec<u8> {
        text_of(&self.steps[..count])
    }
}

/// The lines of some steps.
pub fn text_of(steps: &[Step]) -> Vec<u8> {
    steps
        .iter()
        .flat_map(|step| step.line().into_bytes())
        .collect()
}

/// `0 .. 1`
pub fn range_text(kind: Kind, low: u64, high: u64) -> String {
    format!(
        "{} .. {}",
        number::word_text(kind, low),
        number::word_text(kind, high)
    )
}

/// The name of a step that has none of its own.
pub fn plain_name(k: usize) -> String {
    format!("s{k}")
}

/// The constant of a kind.
pub fn constant(kind: Kind, word: u64) -> Step {
    let operation = match kind {
        Kind::Whole => Operation::WholeConstant,
        _ => Operation::Constant,
    };
    Step {
        operation,
        a: 0,
        b: 0,
        p: word,
        q: 0,
    }
}
