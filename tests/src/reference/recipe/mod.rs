//! Recipes, their runs, their sheets, and why they are turned down: "Recipe text" and "Turning text
//! down" of document 01 and requests W-203 to W-205 and W-208, rule by rule.
//!
//! `operations` is the table of steps, said once; `text` turns recipe text into steps, `frame`
//! reads the inputs, `run` works the steps, and `lines` does so for one frame line after the other.
//! `ranges` has the range rules, `marks` the rule for the marks beside them, `sheet` works both step by
//! step and writes them down, `explain` tells which fact about the ranges a refusal comes from. Doubles
//! and whole numbers travel as words of 64 bits, and a step's kind tells which of the two its word is.

pub mod explain;
pub mod frame;
pub mod lines;
pub mod marks;
pub mod operations;
pub mod ranges;
pub mod run;
pub mod sheet;
pub mod text;

pub use explain::{explain, Explanation};
pub use lines::{run_lines, Answers};
pub use operations::{Kind, Operation, Source, Way, OPERATIONS};
pub use ranges::Range;
pub use run::{run, StepValue};
pub use sheet::{sheet, StepRange};
pub use text::Step;

/// Document 01's number and place.
#[derive(Clone, Copy, Debug, PartialEq, Eq)]
pub struct Refusal {
    pub number: u64,
    pub place: u64,
}

impl Refusal {
    /// A refusal that belongs to a step.
    pub fn at(number: u64, step: usize) -> Refusal {
        let place = step as u64;
        Refusal { number, place }
    }

    /// A refusal of the call as a whole: its place is 0.
    pub fn whole_call(number: u64) -> Refusal {
        Refusal { number, place: 0 }
    }
}

/// Whether a byte is a lower-case hexadecimal digit.
fn is_digit(byte: u8) -> bool {
    matches!(byte, b'0'..=b'9' | b'a'..=b'f')
}

/// The number that up to 16 lower-case hexadecimal digits write.
fn number(digits: &[u8]) -> u64 {
    digits.iter().fold(0, |number, &digit| {
        let value = match digit {
            b'0'..=b'9' => digit - b'0',
            b'a'..=b'f' => digit - b'a' + 10,
            _ => panic!("{digit} is no digit"),
        };
        number << 4 | value as u64
    })
}
