//! Recipes: their sheets and their runs.

use crate::c;
use std::error::Error;
use std::fmt;

/// Steps of the longest recipe: words of memory that are enough for every [`run`].
pub const MOST_STEPS: usize = 128;

/// Bytes of a [`sheet`] per step, its line feed counted.
pub const SHEET_LINE: usize = 39;

/// Bytes of memory that are enough for every [`sheet`].
pub const MOST_SHEET: usize = SHEET_LINE * MOST_STEPS;

/// A step's value. Later versions may have more kinds of values.
#[derive(Clone, Copy, Debug, PartialEq)]
#[non_exhaustive]
pub enum Value {
    /// A double, never a NaN.
    Double(f64),
    /// A whole number.
    Whole(i64),
    /// The 64 bits of a value of this kind, none of those above.
    Other {
        /// The number of the kind.
        kind: u64,
        /// The value's bits.
        word: u64,
    },
}

impl Value {
    pub(crate) fn of(kind: u64, word: u64) -> Value {
        match kind {
            1 => Value::Double(f64::from_bits(word)),
            2 => Value::Whole(word as i64),
            kind => Value::Other { kind, word },
        }
    }
}

/// What is wrong with a recipe or a frame.
///
/// Later versions may have more faults. A number of the library that this version has no name for is kept:
///
/// ```
/// use estrenwind::Fault;
///
/// assert_eq!(Fault::from(32), Fault::Input);
/// assert_eq!(Fault::from(99), Fault::Other(99));
/// assert_eq!(Fault::from(99).number(), 99);
/// ```
#[derive(Clone, Copy, Debug, PartialEq, Eq, Hash)]
#[non_exhaustive]
pub enum Fault {
    /// 10: the text is empty, too long, or not whole lines of 39 bytes.
    Length,
    /// 11: a byte is not a lower-case hexadecimal digit, or a line does not end with a line feed.
    Digit,
    /// 12: there is no such opcode.
    Opcode,
    /// 13: a field that the step does not use is not zero.
    Unused,
    /// 14: an operand does not stand before the step.
    Ahead,
    /// 15: an operand is of the wrong kind.
    Kind,
    /// 16: a NaN in a double input or constant, or an input's low end above its high end.
    Declared,
    /// 17: a seventeenth input.
    Inputs,
    /// 20: fmod or remainder of an infinite number, or by zero; add, subtract or multiply of an infinite number. Of a sheet: it could happen.
    Remainder,
    /// 21: the answer does not fit 64 bits, or ldexp, add, subtract or multiply overflows. Of a sheet: it could happen.
    Overflow,
    /// 22: a whole number beyond 2^53 has no exact double. Of a sheet: it could happen.
    Inexact,
    /// 30: the frame does not have 16 digits for each input.
    Frame,
    /// 31: a byte of the frame is not a lower-case hexadecimal digit.
    FrameDigit,
    /// 32: an input is a NaN or outside its range.
    Input,
    /// 40: the lent memory is too short.
    Room,
    /// The refusal of this number, none of those above.
    Other(u64),
}

impl Fault {
    /// The refusal's number.
    pub fn number(self) -> u64 {
        match self {
            Fault::Length => 10,
            Fault::Digit => 11,
            Fault::Opcode => 12,
            Fault::Unused => 13,
            Fault::Ahead => 14,
            Fault::Kind => 15,
            Fault::Declared => 16,
            Fault::Inputs => 17,
            Fault::Remainder => 20,
            Fault::Overflow => 21,
            Fault::Inexact => 22,
            Fault::Frame => 30,
            Fault::FrameDigit => 31,
            Fault::Input => 32,
            Fault::Room => 40,
            Fault::Other(number) => number,
        }
    }

    /// Whether the place of the refusal is a step's number, and not just 0.
    fn has_step(self) -> bool {
        !matches!(
            self,
            Fault::Length | Fault::Frame | Fault::FrameDigit | Fault::Room | Fault::Other(_)
        )
    }
}

impl From<u64> for Fault {
    /// The fault of a refusal's number.
    fn from(number: u64) -> Fault {
        match number {
            10 => Fault::Length,
            11 => Fault::Digit,
            12 => Fault::Opcode,
            13 => Fault::Unused,
            14 => Fault::Ahead,
            15 => Fault::Kind,
            16 => Fault::Declared,
            17 => Fault::Inputs,
            20 => Fault::Remainder,
            21 => Fault::Overflow,
            22 => Fault::Inexact,
            30 => Fault::Frame,
            31 => Fault::FrameDigit,
            32 => Fault::Input,
            40 => Fault::Room,
            number => Fault::Other(number),
        }
    }
}

impl fmt::Display for Fault {
    fn fmt(&self, f: &mut fmt::Formatter) -> fmt::Result {
        f.write_str(match self {
            Fault::Length => "the recipe is empty, too long, or not whole lines of 39 bytes",
            Fault::Digit => "not a lower-case hexadecimal digit, or no line feed at the end",
            Fault::Opcode => "no such opcode",
            Fault::Unused => "a field that the step does not use is not zero",
            Fault::Ahead => "works on a step that does not stand before it",
            Fault::Kind => "works on a step of the wrong kind",
            Fault::Declared => "a NaN, or a range whose low end is above its high end",
            Fault::Inputs => "a seventeenth input",
            Fault::Remainder => "an infinite operand, or a remainder by zero",
            Fault::Overflow => "the answer does not fit",
            Fault::Inexact => "a whole number beyond 2^53 has no exact double",
            Fault::Frame => "the frame does not have 16 digits for each input",
            Fault::FrameDigit => "not a lower-case hexadecimal digit in the frame",
            Fault::Input => "the input is a NaN or outside its range",
            Fault::Room => "the lent memory is too short",
            Fault::Other(number) => return write!(f, "refusal {number}"),
        })
    }
}

/// What was refused, and where. Nothing was written then.
#[derive(Clone, Copy, Debug, PartialEq, Eq, Hash)]
pub struct TurnedDown {
    /// What is wrong.
    pub fault: Fault,
    /// The step, where one is to blame; else 0.
    pub place: usize,
}

impl TurnedDown {
    pub(crate) fn of(refusal: u64, place: u64) -> TurnedDown {
        TurnedDown {
            fault: Fault::from(refusal),
            place: place as usize,
        }
    }
}

impl fmt::Display for TurnedDown {
    fn fmt(&self, f: &mut fmt::Formatter) -> fmt::Result {
        match self.fault {
            Fault::Other(_) => write!(f, "place {}: ", self.place)?,
            fault if fault.has_step() => write!(f, "step {}: ", self.place)?,
            _ => {}
        }
        self.fault.fmt(f)
    }
}

impl Error for TurnedDown {}

/// Works out every step of a recipe on one frame, writes each step's 64 bits to `words` and gives the last step's value. Words past the last
/// step's stay as they were.
///
/// ```
/// use estrenwind::{run, Fault, Value, MOST_STEPS};
///
/// // An input from -2.5 to 7.25, its floor, and that as a whole number.
/// let recipe = b"010000c004000000000000401d000000000000\n\
///                10000000000000000000000000000000000000\n\
///                18010000000000000000000000000000000000\n";
/// let mut words = [0; MOST_STEPS];
/// assert_eq!(run(recipe, b"bfe0000000000000", &mut words), Ok(Value::Whole(-1)));
/// assert_eq!(f64::from_bits(words[1]), -1.0);
///
/// let refused = run(recipe, b"401e000000000000", &mut words).unwrap_err();
/// assert_eq!((refused.fault, refused.place), (Fault::Input, 0));
///
/// // The input times 3000, rounded once.
/// let recipe = b"010000c004000000000000401d000000000000\n\
///                03000040a77000000000000000000000000000\n\
///                42000100000000000000000000000000000000\n";
/// assert_eq!(run(recipe, b"bfe0000000000000", &mut words), Ok(Value::Double(-1500.0)));
/// ```
pub fn run(recipe: &[u8], frame: &[u8], words: &mut [u64]) -> Result<Value, TurnedDown> {
    // SAFETY: the pointers and lengths are those of slices, and only `words` is written.
    let answer = unsafe {
        c::ew_run(
            recipe.as_ptr(),
            recipe.len(),
            frame.as_ptr(),
            frame.len(),
            words.as_mut_ptr(),
            words.len(),
        )
    };
    match answer.refusal {
        0 => Ok(Value::of(answer.kind, answer.word)),
        refusal => Err(TurnedDown::of(refusal, answer.place)),
    }
}

/// Works out the range of every step of a recipe, over all frames whose inputs lie in their declared ranges, and whether its value is whole;
/// writes one line of [`SHEET_LINE`] bytes per step to `lines` and gives the number of steps. Bytes past the last line stay as they were.
/// A recipe whose sheet passes is refused by no step of a [`run`], and the value of every step lies in its range; that of a step which is
/// marked whole is finite and has no fraction. [`Range::read`](crate::Range::read) reads a line.
///
/// ```
/// use estrenwind::{sheet, Fault, Range, MOST_SHEET, SHEET_LINE};
///
/// let recipe = b"010000c004000000000000401d000000000000\n\
///                10000000000000000000000000000000000000\n\
///                18010000000000000000000000000000000000\n";
/// let mut lines = [0; MOST_SHEET];
/// let steps = sheet(recipe, &mut lines)?;
/// assert_eq!(
///     &lines[..SHEET_LINE * steps],
///     b"000100c004000000000000401d000000000000\n\
///       010101c008000000000000401c000000000000\n\
///       020201fffffffffffffffd0000000000000007\n"
/// );
///
/// // The floor, step 1, is a double without a fraction; the input, step 0, may have one.
/// let whole = |step: usize| Range::read(&lines[SHEET_LINE * step..][..SHEET_LINE - 1]).unwrap().whole;
/// assert!(whole(1) && !whole(0));
///
/// // fmod of a number by itself, which may be zero.
/// let refused = sheet(b"010000c004000000000000401d000000000000\n\
///                       22000000000000000000000000000000000000\n", &mut lines).unwrap_err();
/// assert_eq!((refused.fault, refused.place), (Fault::Remainder, 1));
/// # Ok::<(), estrenwind::TurnedDown>(())
/// ```
pub fn sheet(recipe: &[u8], lines: &mut [u8]) -> Result<usize, TurnedDown> {
    // SAFETY: the pointers and lengths are those of slices, and only `lines` is written.
    let answer = unsafe {
        c::ew_sheet(
            recipe.as_ptr(),
            recipe.len(),
            lines.as_mut_ptr(),
            lines.len(),
        )
    };
    match answer.refusal {
        0 => Ok(answer.steps as usize),
        refusal => Err(TurnedDown::of(refusal, answer.place)),
    }
}

/// Bytes of memory that are enough for the answer to a frame line, and the least that [`run_lines`] works with.
pub const ANSWER_LINE: usize = 19;

/// How many bytes of frame lines [`run_lines`] has read, line feeds counted, and how many bytes of answers it has written.
#[derive(Clone, Copy, Debug, PartialEq, Eq, Hash)]
#[allow(missing_docs)]
pub struct Lines {
    pub read: usize,
    pub written: usize,
}

/// Answers frame lines as the program `run` does, the recipe read once for all of them: each line that has its line feed by one line, 16
/// digits after the kind or a refusal line, while there is room for [`ANSWER_LINE`] bytes. Bytes of `answers` past those written stay as they were.
///
/// What was not read is there for the next call, with the lines that follow it: the answers one after another are those of `run`.
///
/// ```
/// use estrenwind::{run_lines, Lines};
///
/// let recipe = b"010000c004000000000000401d000000000000\n\
///                10000000000000000000000000000000000000\n\
///                18010000000000000000000000000000000000\n";
/// let mut answers = [0; 64];
/// let lines = b"bfe0000000000000\n401e000000000000\n3ff00";
/// assert_eq!(run_lines(recipe, lines, &mut answers), Ok(Lines { read: 34, written: 26 }));
/// assert_eq!(&answers[..26], b"02ffffffffffffffff\nff2000\n");
/// ```
pub fn run_lines(recipe: &[u8], lines: &[u8], answers: &mut [u8]) -> Result<Lines, TurnedDown> {
    // SAFETY: the pointers and lengths are those of slices, and only `answers` is written.
    let answer = unsafe {
        c::ew_run_lines(
            recipe.as_ptr(),
            recipe.len(),
            lines.as_ptr(),
            lines.len(),
            answers.as_mut_ptr(),
            answers.len(),
        )
    };
    match answer.refusal {
        0 => Ok(Lines {
            read: answer.read as usize,
            written: answer.written as usize,
        }),
        refusal => Err(TurnedDown::of(refusal, answer.place)),
    }
}

#[cfg(test)]
mod tests {
    use super::*;

    #[test]
    fn a_kind_without_a_name_is_kept() {
        assert_eq!(Value::of(1, 0x3ff0000000000000), Value::Double(1.0));
        assert_eq!(Value::of(2, u64::MAX), Value::Whole(-1));
        for kind in [0, 3, u64::MAX] {
            assert_eq!(Value::of(kind, 7), Value::Other { kind, word: 7 });
        }
    }
}
