//! Calls of a run, of frame lines, of a sheet and of an explanation that the library is tried on:
//! recipes of all lengths with frames for them, whole ones and damaged ones.
//!
//! `growing` makes valid recipes along a frame or along ranges, `values` the constants, ranges and
//! inputs in them, and `faults` damages them: one fault or two, each at the first, some or the last
//! place. `lines` makes frame lines, whole and damaged, and `reasons` recipes that are turned down
//! for chosen reasons. `shown` reads a sheet's lines back. `comparison` holds what the library makes
//! of a call beside what the reference does, and `walks` is what all calls are tried on. `zeros` holds
//! the rule of W-202 for the zeros in fmin and fmax beside document 01's.

pub mod calls;
pub mod comparison;
pub mod faults;
pub mod growing;
pub mod limits;
pub mod lines;
pub mod reasons;
pub mod shown;
pub mod values;
pub mod walks;
pub mod zeros;

pub use calls::{Call, ExplainCall, RunCall, SheetCall};
pub use lines::LinesCall;

use crate::reference::recipe::{sheet, text, Kind, Operation};

/// The fields of a line.
#[derive(Clone, Copy, Debug, Default, PartialEq, Eq)]
pub struct Line {
    pub opcode: u8,
    pub a: u8,
    pub b: u8,
    pub p: u64,
    pub q: u64,
}

impl Line {
    pub fn constant(kind: Kind, p: u64) -> Line {
        let opcode = match kind {
            Kind::Double => 0x03,
            Kind::Whole => 0x04,
        };
        Line {
            opcode,
            p,
            ..Line::default()
        }
    }

    pub fn input(kind: Kind, [p, q]: [u64; 2]) -> Line {
        let opcode = match kind {
            Kind::Double => 0x01,
            Kind::Whole => 0x02,
        };
        Line {
            opcode,
            p,
            q,
            ..Line::default()
        }
    }

    /// An input from one number to another.
    pub fn input_of<E: Ends>(ends: E) -> Line {
        Line::input(E::KIND, ends.words())
    }

    /// A step that works on earlier ones.
    pub fn step(opcode: u8, a: usize, b: usize) -> Line {
        Line {
            opcode,
            a: a as u8,
            b: b as u8,
            ..Line::default()
        }
    }

    /// None where the opcode is damaged.
    pub fn operation(&self) -> Option<&'static Operation> {
        Operation::of_opcode(self.opcode)
    }

    pub fn is_input(&self) -> bool {
        self.operation().is_some_and(Operation::is_input)
    }

    pub fn kind(&self) -> Option<Kind> {
        self.operation().map(|operation| operation.kind)
    }

    fn write(&self, text: &mut Vec<u8>) {
        for (digits, field) in [
            (2, self.opcode as u64),
            (2, self.a as u64),
            (2, self.b as u64),
            (16, self.p),
            (16, self.q),
        ] {
            write_digits(text, digits, field);
        }
        text.push(b'\n');
    }
}

fn write_digits(text: &mut Vec<u8>, digits: u32, field: u64) {
    for place in (0..digits).rev() {
        let digit = field >> (4 * place) & 15;
        text.push(b"0123456789abcdef"[digit as usize]);
    }
}

/// The ends of a range as numbers, and the kind that they are of.
pub trait Ends: Copy {
    const KIND: Kind;
    fn words(self) -> [u64; 2];
}

impl Ends for [f64; 2] {
    const KIND: Kind = Kind::Double;
    fn words(self) -> [u64; 2] {
        self.map(f64::to_bits)
    }
}

impl Ends for [i64; 2] {
    const KIND: Kind = Kind::Whole;
    fn words(self) -> [u64; 2] {
        self.map(|n| n as u64)
    }
}

/// A recipe's lines and a word for each of its inputs.
#[derive(Clone, Debug, Default)]
pub struct Draft {
    pub lines: Vec<Line>,
    pub words: Vec<u64>,
}

impl Draft {
    /// The steps that are inputs.
    pub fn inputs(&self) -> Vec<usize> {
        let is_input = |&place: &usize| self.lines[place].is_input();
        (0..self.lines.len()).filter(is_input).collect()
    }

    fn text(&self) -> Vec<u8> {
        let mut text = Vec::with_capacity(text::LINE * self.lines.len());
        for line in &self.lines {
            line.write(&mut text);
        }
        text
    }

    /// The run that it is, with memory for just its steps.
    pub fn run_call(&self) -> RunCall {
        RunCall {
            text: self.text(),
            frame: frame(&self.words),
            lent: self.lines.len(),
        }
    }

    /// The sheet of its recipe, with memory for just its lines.
    pub fn sheet_call(&self) -> SheetCall {
        SheetCall {
            text: self.text(),
            lent: sheet::LINE * self.lines.len(),
        }
    }

    /// The explanation of its recipe.
    pub fn explain_call(&self) -> ExplainCall {
        ExplainCall { text: self.text() }
    }
}

/// The frame that holds these words.
pub fn frame(words: &[u64]) -> Vec<u8> {
    let mut frame = Vec::with_capacity(16 * words.len());
    for &word in words {
        write_digits(&mut frame, 16, word);
    }
    frame
}

#[cfg(test)]
mod tests {
    use super::*;

    #[test]
    fn lines_are_written_as_document_01_prints_them() {
        let draft = Draft {
            lines: vec![
                Line::input(Kind::Double, [0xc004000000000000, 0x401d000000000000]),
                Line::step(0x10, 0, 0),
                Line::step(0x18, 1, 0),
            ],
            words: vec![0xbfe0000000000000],
        };
        let call = draft.run_call();
        let text = "010000c004000000000000401d000000000000\n\
                    10000000000000000000000000000000000000\n\
                    18010000000000000000000000000000000000\n";
        assert_eq!(call.text, text.as_bytes());
        assert_eq!(call.frame, b"bfe0000000000000");
        assert_eq!((call.lent, draft.inputs()), (3, vec![0]));
        let call = draft.sheet_call();
        assert_eq!((&call.text[..], call.lent), (text.as_bytes(), 3 * 39));
        assert_eq!(draft.explain_call().text, text.as_bytes());
    }
}
