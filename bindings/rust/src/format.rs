//! How recipes, sheets, frames and answers are written: what they measure, and their lines as values.

use crate::recipe::Value;

/// Bytes of a recipe per step, its line feed counted.
pub const RECIPE_LINE: usize = 39;

/// A field of a recipe's line: its name, the digits before it and its own.
#[derive(Clone, Copy, Debug, PartialEq, Eq, Hash)]
#[allow(missing_docs)]
pub struct Field {
    pub name: &'static str,
    pub start: usize,
    pub digits: usize,
}

impl Field {
    /// The number that stands there in a line.
    pub fn read(&self, line: &[u8]) -> Option<u64> {
        read_digits(line.get(self.start..self.start + self.digits)?)
    }
}

const fn field(name: &'static str, start: usize, digits: usize) -> Field {
    Field {
        name,
        start,
        digits,
    }
}

/// The fields of a recipe's line, in their order.
pub const STEP_FIELDS: [Field; 5] = [
    field("opcode", 0, 2),
    field("A", 2, 2),
    field("B", 4, 2),
    field("P", 6, 16),
    field("Q", 22, 16),
];

/// What a refusal line begins with, where an answer has its kind.
pub const REFUSAL_MARK: &[u8] = b"ff";

/// Bytes of a refusal line, its line feed counted.
pub const REFUSAL_LINE: usize = 7;

/// Inputs that a recipe may have.
pub const MOST_INPUTS: usize = 16;

/// Bytes of a frame per input.
pub const FRAME_INPUT: usize = 16;

/// Bytes of the longest frame.
pub const MOST_FRAME: usize = MOST_INPUTS * FRAME_INPUT;

/// The version of the library, which is also this crate's.
pub const VERSION: &str = env!("CARGO_PKG_VERSION");

/// What a step's value is. Later versions may have more.
#[derive(Clone, Copy, Debug, PartialEq, Eq, Hash)]
#[non_exhaustive]
pub enum Kind {
    /// 01: a double.
    Double,
    /// 02: a whole number of 64 bits.
    Whole,
}

impl Kind {
    /// The kind's number.
    pub fn number(self) -> u64 {
        match self {
            Kind::Double => 1,
            Kind::Whole => 2,
        }
    }

    /// The kind of a number.
    pub fn from_number(number: u64) -> Option<Kind> {
        [Kind::Double, Kind::Whole]
            .into_iter()
            .find(|kind| kind.number() == number)
    }

    /// The value of this kind that 64 bits stand for.
    pub fn value(self, word: u64) -> Value {
        Value::of(self.number(), word)
    }
}

/// What a step does. Later versions may have more.
#[derive(Clone, Copy, Debug, PartialEq, Eq, Hash)]
#[allow(missing_docs)]
#[non_exhaustive]
pub enum Operation {
    /// An input, a double from P to Q.
    Input,
    /// An input, a whole number from P to Q.
    WholeInput,
    /// The double P.
    Constant,
    /// The whole number P.
    WholeConstant,
    Floor,
    Ceil,
    Trunc,
    Round,
    Nearbyint,
    /// The fraction of A, as modf gives it.
    Fraction,
    Fabs,
    Negate,
    Lround,
    Fmin,
    Fmax,
    Fmod,
    Ldexp,
    /// A less the nearest multiple of B, halves to even.
    Remainder,
    /// A + B of whole numbers.
    Sum,
    /// A - B of whole numbers.
    Difference,
    /// The whole number A as a double.
    ToDouble,
    /// A + B of doubles, rounded once to the nearest, halves to even.
    Add,
    /// A - B of doubles, rounded once to the nearest, halves to even.
    Subtract,
    /// A times B of doubles, rounded once to the nearest, halves to even.
    Multiply,
}

/// What there is to know of an operation.
struct Row {
    operation: Operation,
    opcode: u8,
    name: &'static str,
    operands: &'static [Kind],
    gives: Kind,
}

const fn row(
    operation: Operation,
    opcode: u8,
    name: &'static str,
    operands: &'static [Kind],
    gives: Kind,
) -> Row {
    Row {
        operation,
        opcode,
        name,
        operands,
        gives,
    }
}

const D: Kind = Kind::Double;
const W: Kind = Kind::Whole;

/// In the order of opcodes, which is that of the enum. The crate's tests ask the library about every row, and about every opcode without one.
const ROWS: [Row; 24] = [
    row(Operation::Input, 0x01, "input", &[], D),
    row(Operation::WholeInput, 0x02, "input whole", &[], W),
    row(Operation::Constant, 0x03, "constant", &[], D),
    row(Operation::WholeConstant, 0x04, "constant whole", &[], W),
    row(Operation::Floor, 0x10, "floor", &[D], D),
    row(Operation::Ceil, 0x11, "ceil", &[D], D),
    row(Operation::Trunc, 0x12, "trunc", &[D], D),
    row(Operation::Round, 0x13, "round", &[D], D),
    row(Operation::Nearbyint, 0x14, "nearbyint", &[D], D),
    row(Operation::Fraction, 0x15, "fraction", &[D], D),
    row(Operation::Fabs, 0x16, "fabs", &[D], D),
    row(Operation::Negate, 0x17, "negate", &[D], D),
    row(Operation::Lround, 0x18, "lround", &[D], W),
    row(Operation::Fmin, 0x20, "fmin", &[D, D], D),
    row(Operation::Fmax, 0x21, "fmax", &[D, D], D),
    row(Operation::Fmod, 0x22, "fmod", &[D, D], D),
    row(Operation::Ldexp, 0x23, "ldexp", &[D, W], D),
    row(Operation::Remainder, 0x24, "remainder", &[D, D], D),
    row(Operation::Sum, 0x30, "sum", &[W, W], W),
    row(Operation::Difference, 0x31, "difference", &[W, W], W),
    row(Operation::ToDouble, 0x32, "to_double", &[W], D),
    row(Operation::Add, 0x40, "add", &[D, D], D),
    row(Operation::Subtract, 0x41, "subtract", &[D, D], D),
    row(Operation::Multiply, 0x42, "multiply", &[D, D], D),
];

impl Operation {
    fn row(self) -> &'static Row {
        &ROWS[self as usize]
    }

    /// All of them, in the order of their opcodes.
    pub fn all() -> impl Iterator<Item = Operation> {
        ROWS.iter().map(|row| row.operation)
    }

    /// The operation of an opcode.
    pub fn from_opcode(opcode: u8) -> Option<Operation> {
        Operation::all().find(|operation| operation.opcode() == opcode)
    }

    /// Its opcode.
    pub fn opcode(self) -> u8 {
        self.row().opcode
    }

    /// Its name: that of the C function where there is one.
    pub fn name(self) -> &'static str {
        self.row().name
    }

    /// The kinds of the steps that it works on: none, A's, or A's and B's.
    pub fn operands(self) -> &'static [Kind] {
        self.row().operands
    }

    /// The kind of its value.
    pub fn gives(self) -> Kind {
        self.row().gives
    }

    /// Which of the [`STEP_FIELDS`] it uses; the others are 0.
    pub fn uses(self) -> [bool; 5] {
        let operands = self.operands().len();
        let declares = self.is_input() || self.is_constant();
        [true, operands > 0, operands > 1, declares, self.is_input()]
    }

    /// Whether its value comes from the frame.
    pub fn is_input(self) -> bool {
        matches!(self, Operation::Input | Operation::WholeInput)
    }

    /// Whether its value stands in the recipe.
    pub fn is_constant(self) -> bool {
        matches!(self, Operation::Constant | Operation::WholeConstant)
    }
}

/// The number that lower-case hexadecimal digits write, 16 of them at most.
pub fn read_digits(digits: &[u8]) -> Option<u64> {
    let digit = |&byte: &u8| match byte {
        b'0'..=b'9' => Some(u64::from(byte - b'0')),
        b'a'..=b'f' => Some(u64::from(byte - b'a') + 10),
        _ => None,
    };
    if digits.len() > 16 {
        return None;
    }
    digits
        .iter()
        .try_fold(0, |number, byte| Some(number << 4 | digit(byte)?))
}

/// Takes fields of lower-case hexadecimal digits off the front of a line.
struct Fields<'a>(&'a [u8]);

impl Fields<'_> {
    fn next(&mut self, count: usize) -> Option<u64> {
        let (field, rest) = self.0.split_at_checked(count)?;
        self.0 = rest;
        read_digits(field)
    }
}

/// Whether a mark, by its number, says that a value is a whole number.
fn read_mark(number: u64) -> Option<bool> {
    match number {
        0 => Some(false),
        1 => Some(true),
        _ => None,
    }
}

/// A line of a recipe. What its operation does not use is 0.
///
/// ```
/// use estrenwind::{Operation, Step};
///
/// let floor = Step::read(b"10000000000000000000000000000000000000").unwrap();
/// assert_eq!((floor.operation, floor.a), (Operation::Floor, 0));
/// assert_eq!(floor.line(), "10000000000000000000000000000000000000\n");
///
/// let scaled = Step { operation: Operation::Multiply, a: 0, b: 1, p: 0, q: 0 };
/// assert_eq!(scaled.line(), "42000100000000000000000000000000000000\n");
/// ```
#[derive(Clone, Copy, Debug, PartialEq, Eq, Hash)]
#[allow(missing_docs)]
pub struct Step {
    pub operation: Operation,
    pub a: usize,
    pub b: usize,
    pub p: u64,
    pub q: u64,
}

impl Step {
    /// The step of a line without its line feed. Its fields may be any: whether the step may stand in a recipe, only the library says.
    pub fn read(line: &[u8]) -> Option<Step> {
        let [opcode, a, b, p, q] = STEP_FIELDS.map(|field| field.read(line));
        let step = Step {
            operation: Operation::from_opcode(opcode? as u8)?,
            a: a? as usize,
            b: b? as usize,
            p: p?,
            q: q?,
        };
        (line.len() + 1 == RECIPE_LINE).then_some(step)
    }

    /// What stands in the fields of its line.
    pub fn values(&self) -> [u64; 5] {
        let opcode = self.operation.opcode().into();
        [opcode, self.a as u64, self.b as u64, self.p, self.q]
    }

    /// Its line, with the line feed. A and B are below 256.
    pub fn line(&self) -> String {
        let fields = STEP_FIELDS.iter().zip(self.values());
        let digits = fields.map(|(field, value)| format!("{value:00$x}", field.digits));
        digits.chain(["\n".to_owned()]).collect()
    }

    /// The steps that it works on: none, A, or A and B.
    pub fn operands(&self) -> impl Iterator<Item = usize> {
        [self.a, self.b]
            .into_iter()
            .take(self.operation.operands().len())
    }
}

/// The steps of a recipe that the library has read.
pub fn steps(recipe: &[u8]) -> Option<Vec<Step>> {
    recipe
        .chunks(RECIPE_LINE)
        .map(|line| Step::read(line.strip_suffix(b"\n")?))
        .collect()
}

/// A line of a [`sheet`](crate::sheet): a step's kind, its mark, and the ends of its range, 64 bits each.
///
/// ```
/// use estrenwind::{Kind, Range};
///
/// let floor = Range::read(b"010101c008000000000000401c000000000000").unwrap();
/// assert_eq!((floor.step, floor.kind, floor.whole), (1, Kind::Double, true));
/// assert_eq!((f64::from_bits(floor.low), f64::from_bits(floor.high)), (-3.0, 7.0));
/// ```
#[derive(Clone, Copy, Debug, PartialEq, Eq, Hash)]
#[allow(missing_docs)]
pub struct Range {
    pub step: usize,
    pub kind: Kind,
    /// The mark: whether the value is known to be a whole number, which a double is where it is finite and has no fraction. Where this is
    /// false nothing is promised: the value may be a whole number all the same.
    pub whole: bool,
    pub low: u64,
    pub high: u64,
}

impl Range {
    /// The range of a line without its line feed. None where it has another length, a kind that there is not, or a mark that is neither 00
    /// nor 01.
    pub fn read(line: &[u8]) -> Option<Range> {
        let mut fields = Fields(line);
        let range = Range {
            step: fields.next(2)? as usize,
            kind: Kind::from_number(fields.next(2)?)?,
            whole: read_mark(fields.next(2)?)?,
            low: fields.next(16)?,
            high: fields.next(16)?,
        };
        fields.0.is_empty().then_some(range)
    }
}

/// The answer to a frame, or the refusal, that a line without its line feed writes.
///
/// ```
/// use estrenwind::{read_answer, Fault, Value};
///
/// assert_eq!(read_answer(b"02ffffffffffffffff"), Some(Ok(Value::Whole(-1))));
/// let refused = read_answer(b"ff2000").unwrap().unwrap_err();
/// assert_eq!((refused.fault, refused.place), (Fault::Input, 0));
/// ```
pub fn read_answer(line: &[u8]) -> Option<Result<Value, crate::TurnedDown>> {
    if let Some(rest) = line.strip_prefix(REFUSAL_MARK) {
        let mut fields = Fields(rest);
        let refused = crate::TurnedDown::of(fields.next(2)?, fields.next(2)?);
        return fields.0.is_empty().then_some(Err(refused));
    }
    let mut fields = Fields(line);
    let answer = Kind::from_number(fields.next(2)?)?.value(fields.next(16)?);
    fields.0.is_empty().then_some(Ok(answer))
}

/// The refusal's line, as the programs write it, without its line feed.
pub fn refusal_line(refused: crate::TurnedDown) -> String {
    format!("ff{:02x}{:02x}", refused.fault.number(), refused.place)
}

#[cfg(test)]
mod tests {
    use super::*;

    #[test]
    fn rows_stand_where_the_enum_says() {
        for operation in Operation::all() {
            assert_eq!(operation.row().operation, operation);
            assert_eq!(Operation::from_opcode(operation.opcode()), Some(operation));
        }
    }

    #[test]
    fn fields_are_the_line() {
        let mut end = 0;
        for field in STEP_FIELDS {
            assert_eq!(field.start, end);
            end += field.digits;
        }
        assert_eq!(end + 1, RECIPE_LINE);
    }

    #[test]
    fn refusal_lines_come_back() {
        for (number, place) in [(10, 0), (32, 127), (255, 255)] {
            let refused = crate::TurnedDown::of(number, place);
            let line = refusal_line(refused);
            assert_eq!(line.len() + 1, REFUSAL_LINE);
            assert_eq!(read_answer(line.as_bytes()), Some(Err(refused)));
        }
    }

    #[test]
    fn a_range_is_its_fields() {
        let line = "7f0201fffffffffffffffd0000000000000007";
        assert_eq!(line.len() + 1, crate::SHEET_LINE);
        let range = Range {
            step: 127,
            kind: Kind::Whole,
            whole: true,
            low: -3i64 as u64,
            high: 7,
        };
        assert_eq!(Range::read(line.as_bytes()), Some(range));
    }

    /// Every mark of two bytes but 00 and 01, and the line of before there were marks.
    #[test]
    fn other_marks_are_none() {
        let line = *b"010100c008000000000000401c000000000000";
        for (first, second) in (0..=255).flat_map(|first| (0..=255).map(move |x| (first, x))) {
            let mut line = line;
            line[4..6].copy_from_slice(&[first, second]);
            let whole = match &line[4..6] {
                b"00" => Some(false),
                b"01" => Some(true),
                _ => None,
            };
            assert_eq!(Range::read(&line).map(|range| range.whole), whole);
        }
        assert_eq!(Range::read(b"0101c008000000000000401c000000000000"), None);
    }

    #[test]
    fn lines_of_other_lengths_are_none() {
        let line = b"10000000000000000000000000000000000000";
        assert!(Step::read(line).is_some());
        assert!(Step::read(&line[1..]).is_none());
        assert!(Step::read(b"100000000000000000000000000000000000000").is_none());
        assert!(Step::read(b"1000000000000000000000000000000000000G").is_none());
        assert!(Range::read(b"000100c004000000000000401d000000000000").is_some());
        assert!(Range::read(b"000100c004000000000000401d0000000000000").is_none());
        assert!(Range::read(b"000100c004000000000000401d00000000000").is_none());
        assert!(Range::read(b"000300c004000000000000401d000000000000").is_none());
        assert!(read_answer(b"02ffffffffffffffff0").is_none());
        assert!(read_answer(b"ff200").is_none());
    }
}
