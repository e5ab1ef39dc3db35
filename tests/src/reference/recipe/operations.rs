//! The table of steps: what each opcode takes, gives and refuses.

use super::ranges::{self, Range, Rule};
use crate::answer::Answer;
use crate::reference::{
    arithmetic, fmod, ldexp, order, parts, remainder, rounding, short, whole, Class, BINARY64,
};
use std::cmp::Ordering;

/// What a step's word is.
#[derive(Clone, Copy, Debug, PartialEq, Eq)]
pub enum Kind {
    Double = 1,
    Whole = 2,
}

/// By which of the reference's functions values are worked.
#[derive(Clone, Copy, Debug, PartialEq, Eq)]
pub enum Way {
    /// The authority's.
    Exact,
    /// The same answers at speed.
    Short,
    /// The short ones, but fmin and fmax as document 01 has them without W-202: of equal operands,
    /// as the two zeros are, the first.
    FirstOfEqual,
}

/// A function of one or two words; one that isn't used is 0.
pub type Words = fn(u64, u64) -> Answer;

/// How a step gets its value from those at A and B, each way, and its range from theirs.
pub struct Function {
    exact: Words,
    short: Words,
    first_of_equal: Words,
    /// The numbers with which the step is refused where the function is: for operands that it has no
    /// answer for, and for a result that is too large.
    refusals: [u64; 2],
    rule: Rule,
}

impl Function {
    /// The value, or the number of the step's refusal.
    pub fn value(&self, way: Way, a: u64, b: u64) -> Result<u64, u64> {
        let answer = match way {
            Way::Exact => (self.exact)(a, b),
            Way::Short => (self.short)(a, b),
            Way::FirstOfEqual => (self.first_of_equal)(a, b),
        };
        let [of_operands, of_result] = self.refusals;
        match answer.refusal {
            0 => Ok(answer.words[0]),
            3 => Err(of_result),
            _ => Err(of_operands),
        }
    }

    /// The range, or the number of the step's refusal on the sheet. An operand that isn't used is
    /// 0 to 0.
    pub fn range(&self, way: Way, a: Range, b: Range) -> Result<Range, u64> {
        (self.rule)(self, way, a, b)
    }
}

/// Where a step's value comes from. This also says which fields the step uses.
pub enum Source {
    /// The frame: P to Q are the range.
    Input,
    /// P.
    Constant,
    /// The value at A.
    One { a: Kind, function: Function },
    /// The values at A and B.
    Two {
        a: Kind,
        b: Kind,
        function: Function,
    },
}

impl Source {
    /// The kinds that A and B have to have, of those that are used.
    pub fn operands(&self) -> Vec<Kind> {
        match *self {
            Source::Input | Source::Constant => vec![],
            Source::One { a, .. } => vec![a],
            Source::Two { a, b, .. } => vec![a, b],
        }
    }
}

pub struct Operation {
    pub opcode: u8,
    /// The kind of the step's value.
    pub kind: Kind,
    pub source: Source,
}

impl Operation {
    pub fn of_opcode(opcode: u8) -> Option<&'static Operation> {
        OPERATIONS
            .iter()
            .find(|operation| operation.opcode == opcode)
    }

    /// How its value comes from those of other steps; none where it doesn't.
    pub fn function(&self) -> Option<&Function> {
        match &self.source {
            Source::Input | Source::Constant => None,
            Source::One { function, .. } | Source::Two { function, .. } => Some(function),
        }
    }

    pub fn is_input(&self) -> bool {
        matches!(self.source, Source::Input)
    }

    pub fn uses_a(&self) -> bool {
        matches!(self.source, Source::One { .. } | Source::Two { .. })
    }

    pub fn uses_b(&self) -> bool {
        matches!(self.source, Source::Two { .. })
    }

    pub fn uses_p(&self) -> bool {
        matches!(self.source, Source::Input | Source::Constant)
    }

    pub fn uses_q(&self) -> bool {
        matches!(self.source, Source::Input)
    }
}

impl Kind {
    /// Whether a word is a double that is not a number.
    pub fn is_nan(self, word: u64) -> bool {
        self == Kind::Double && BINARY64.classify(word) == Class::Nan
    }

    /// The order of two words as the numbers they are, none a NaN.
    pub fn compare(self, way: Way, x: u64, y: u64) -> Ordering {
        match (self, way) {
            (Kind::Double, Way::Exact) => order::compare(&BINARY64, x, y),
            (Kind::Double, Way::Short | Way::FirstOfEqual) => {
                BINARY64.rank(x).cmp(&BINARY64.rank(y))
            }
            (Kind::Whole, _) => (x as i64).cmp(&(y as i64)),
        }
    }
}

const fn input(opcode: u8, kind: Kind) -> Operation {
    let source = Source::Input;
    Operation {
        opcode,
        kind,
        source,
    }
}

const fn constant(opcode: u8, kind: Kind) -> Operation {
    let source = Source::Constant;
    Operation {
        opcode,
        kind,
        source,
    }
}

/// A step that gives `kind` from the value at A.
const fn one(opcode: u8, a: Kind, kind: Kind, function: Function) -> Operation {
    let source = Source::One { a, function };
    Operation {
        opcode,
        kind,
        source,
    }
}

/// A step that gives `kind` from the values at A and B.
const fn two(opcode: u8, [a, b]: [Kind; 2], kind: Kind, function: Function) -> Operation {
    let source = Source::Two { a, b, function };
    Operation {
        opcode,
        kind,
        source,
    }
}

/// A function that refuses with one number whatever its own is.
const fn refusing(refusal: u64, rule: Rule, exact: Words, short: Words) -> Function {
    Function {
        exact,
        short,
        first_of_equal: short,
        refusals: [refusal; 2],
        rule,
    }
}

/// A sum, difference or product. W-208: "20 for an infinite operand, then 21 for an infinite result".
const fn computing(rule: Rule, exact: Words, short: Words) -> Function {
    Function {
        refusals: [20, 21],
        ..refusing(0, rule, exact, short)
    }
}

/// A function that never refuses.
const fn always(rule: Rule, exact: Words, short: Words) -> Function {
    refusing(0, rule, exact, short)
}

/// fmin or fmax, which never refuse, and which W-202 changed.
const fn choosing(exact: Words, short: Words, first_of_equal: Words) -> Function {
    Function {
        first_of_equal,
        ..always(ranges::of_ends, exact, short)
    }
}

use Kind::{Double, Whole};

/// Every opcode there is.
#[rustfmt::skip]
pub static OPERATIONS: [Operation; 24] = [
    input(0x01, Double),
    input(0x02, Whole),
    constant(0x03, Double),
    constant(0x04, Whole),
    one(0x10, Double, Double, always(ranges::of_ends,
        |a, _| Answer::word(rounding::floor(&BINARY64, a)),
        |a, _| Answer::word(short::rounding::floor(&BINARY64, a)),
    )),
    one(0x11, Double, Double, always(ranges::of_ends,
        |a, _| Answer::word(rounding::ceil(&BINARY64, a)),
        |a, _| Answer::word(short::rounding::ceil(&BINARY64, a)),
    )),
    one(0x12, Double, Double, always(ranges::of_ends,
        |a, _| Answer::word(rounding::trunc(&BINARY64, a)),
        |a, _| Answer::word(short::rounding::trunc(&BINARY64, a)),
    )),
    one(0x13, Double, Double, always(ranges::of_ends,
        |a, _| Answer::word(rounding::round(&BINARY64, a)),
        |a, _| Answer::word(short::rounding::round(&BINARY64, a)),
    )),
    one(0x14, Double, Double, always(ranges::of_ends,
        |a, _| Answer::word(rounding::nearbyint(&BINARY64, a)),
        |a, _| Answer::word(short::rounding::nearbyint(&BINARY64, a)),
    )),
    one(0x15, Double, Double, always(ranges::of_fraction,
        |a, _| Answer::word(parts::modf(&BINARY64, a).words[1]),
        |a, _| Answer::word(short::parts::modf(&BINARY64, a).words[1]),
    )),
    one(0x16, Double, Double, always(ranges::of_magnitude,
        |a, _| Answer::word(BINARY64.fabs(a)),
        |a, _| Answer::word(BINARY64.fabs(a)),
    )),
    one(0x17, Double, Double, always(ranges::of_swapped_ends,
        |a, _| Answer::word(BINARY64.negate(a)),
        |a, _| Answer::word(BINARY64.negate(a)),
    )),
    one(0x18, Double, Whole, refusing(21, ranges::of_ends,
        |a, _| rounding::lround(&BINARY64, a),
        |a, _| short::rounding::lround(&BINARY64, a),
    )),
    two(0x20, [Double, Double], Double, choosing(
        |a, b| Answer::word(order::fmin(&BINARY64, a, b)),
        |a, b| Answer::word(short::order::fmin(&BINARY64, a, b)),
        |a, b| Answer::word(short::first_of_equal::fmin(&BINARY64, a, b)),
    )),
    two(0x21, [Double, Double], Double, choosing(
        |a, b| Answer::word(order::fmax(&BINARY64, a, b)),
        |a, b| Answer::word(short::order::fmax(&BINARY64, a, b)),
        |a, b| Answer::word(short::first_of_equal::fmax(&BINARY64, a, b)),
    )),
    two(0x22, [Double, Double], Double, refusing(20, ranges::of_fmod,
        |a, b| fmod::fmod(&BINARY64, a, b),
        |a, b| short::fmod::fmod(&BINARY64, a, b),
    )),
    two(0x23, [Double, Whole], Double, refusing(21, ranges::of_scaling,
        |a, b| ldexp::ldexp(&BINARY64, a, b as i64),
        |a, b| short::ldexp::ldexp(&BINARY64, a, b as i64),
    )),
    two(0x24, [Double, Double], Double, refusing(20, ranges::of_nearest_remainder,
        |a, b| remainder::remainder(&BINARY64, a, b),
        |a, b| short::remainder::remainder(&BINARY64, a, b),
    )),
    two(0x30, [Whole, Whole], Whole, refusing(21, ranges::of_ends,
        |a, b| whole::sum(a as i64, b as i64),
        |a, b| whole::sum(a as i64, b as i64),
    )),
    two(0x31, [Whole, Whole], Whole, refusing(21, ranges::of_crossed_ends,
        |a, b| whole::difference(a as i64, b as i64),
        |a, b| whole::difference(a as i64, b as i64),
    )),
    one(0x32, Whole, Double, refusing(22, ranges::of_ends,
        |a, _| whole::to_double(&BINARY64, a as i64),
        |a, _| short::whole::to_double(&BINARY64, a as i64),
    )),
    two(0x40, [Double, Double], Double, computing(ranges::of_sum,
        |a, b| arithmetic::sum(&BINARY64, a, b),
        |a, b| short::arithmetic::sum(&BINARY64, a, b),
    )),
    two(0x41, [Double, Double], Double, computing(ranges::of_difference,
        |a, b| arithmetic::difference(&BINARY64, a, b),
        |a, b| short::arithmetic::difference(&BINARY64, a, b),
    )),
    two(0x42, [Double, Double], Double, computing(ranges::of_product,
        |a, b| arithmetic::product(&BINARY64, a, b),
        |a, b| short::arithmetic::product(&BINARY64, a, b),
    )),
];
