//! The functions under test, one row each: the library's at each width beside the reference's.

use crate::answer::Answer;
use crate::library::*;
use crate::operands::Operands;
use crate::reference::{conversion, fmod, ldexp, order, parts, remainder, rounding, short};
use crate::reference::{Format, BINARY16, BINARY32, BINARY64};

/// A library function on up to two operands. A pattern narrower than 64 bits stands in the low
/// ones, a signed number as its two's complement.
pub type Library = fn(u64, u64) -> Answer;

/// A reference function, over the format of its operands.
pub type Reference = fn(&Format, u64, u64) -> Answer;

pub struct Function {
    pub name: &'static str,
    /// The number that stands for the function in vectors. It is the opcode of the recipe step where
    /// there is one, but for remainder's: 24 has stood for nextafter since before W-204.
    pub number: u8,
    pub operands: Operands,
    /// The library's function at each format of an operand that it is there for.
    pub library: &'static [(Format, Library)],
    /// The authority.
    pub reference: Reference,
    /// The same answers at speed, for billions of patterns.
    pub short: Reference,
}

pub const FUNCTIONS: [Function; 20] = [
    Function {
        name: "floor",
        number: 0x10,
        operands: Operands::Pattern,
        library: &[
            (BINARY64, |x, _| Answer::word(ew_floor_f64(x))),
            (BINARY32, |x, _| Answer::word(ew_floor_f32(x as u32).into())),
            (BINARY16, |x, _| Answer::word(ew_floor_f16(x as u16).into())),
        ],
        reference: |format, x, _| Answer::word(rounding::floor(format, x)),
        short: |format, x, _| Answer::word(short::rounding::floor(format, x)),
    },
    Function {
        name: "ceil",
        number: 0x11,
        operands: Operands::Pattern,
        library: &[
            (BINARY64, |x, _| Answer::word(ew_ceil_f64(x))),
            (BINARY32, |x, _| Answer::word(ew_ceil_f32(x as u32).into())),
            (BINARY16, |x, _| Answer::word(ew_ceil_f16(x as u16).into())),
        ],
        reference: |format, x, _| Answer::word(rounding::ceil(format, x)),
        short: |format, x, _| Answer::word(short::rounding::ceil(format, x)),
    },
    Function {
        name: "trunc",
        number: 0x12,
        operands: Operands::Pattern,
        library: &[
            (BINARY64, |x, _| Answer::word(ew_trunc_f64(x))),
            (BINARY32, |x, _| Answer::word(ew_trunc_f32(x as u32).into())),
            (BINARY16, |x, _| Answer::word(ew_trunc_f16(x as u16).into())),
        ],
        reference: |format, x, _| Answer::word(rounding::trunc(format, x)),
        short: |format, x, _| Answer::word(short::rounding::trunc(format, x)),
    },
    Function {
        name: "round",
        number: 0x13,
        operands: Operands::Pattern,
        library: &[
            (BINARY64, |x, _| Answer::word(ew_round_f64(x))),
            (BINARY32, |x, _| Answer::word(ew_round_f32(x as u32).into())),
            (BINARY16, |x, _| Answer::word(ew_round_f16(x as u16).into())),
        ],
        reference: |format, x, _| Answer::word(rounding::round(format, x)),
        short: |format, x, _| Answer::word(short::rounding::round(format, x)),
    },
    Function {
        name: "nearbyint",
        number: 0x14,
        operands: Operands::Pattern,
        library: &[
            (BINARY64, |x, _| Answer::word(ew_nearbyint_f64(x))),
            (BINARY32, |x, _| {
                Answer::word(ew_nearbyint_f32(x as u32).into())
            }),
            (BINARY16, |x, _| {
                Answer::word(ew_nearbyint_f16(x as u16).into())
            }),
        ],
        reference: |format, x, _| Answer::word(rounding::nearbyint(format, x)),
        short: |format, x, _| Answer::word(short::rounding::nearbyint(format, x)),
    },
    Function {
        name: "modf",
        number: 0x15,
        operands: Operands::Pattern,
        library: &[
            (BINARY64, |x, _| ew_modf_f64(x).into()),
            (BINARY32, |x, _| ew_modf_f32(x as u32).into()),
        ],
        reference: |format, x, _| parts::modf(format, x),
        short: |format, x, _| short::parts::modf(format, x),
    },
    Function {
        name: "fabs",
        number: 0x16,
        operands: Operands::Pattern,
        library: &[
            (BINARY64, |x, _| Answer::word(ew_fabs_f64(x))),
            (BINARY32, |x, _| Answer::word(ew_fabs_f32(x as u32).into())),
        ],
        reference: |format, x, _| Answer::word(format.fabs(x)),
        short: |format, x, _| Answer::word(format.fabs(x)),
    },
    Function {
        name: "negate",
        number: 0x17,
        operands: Operands::Pattern,
        library: &[
            (BINARY64, |x, _| Answer::word(ew_negate_f64(x))),
            (BINARY32, |x, _| {
                Answer::word(ew_negate_f32(x as u32).into())
            }),
        ],
        reference: |format, x, _| Answer::word(format.negate(x)),
        short: |format, x, _| Answer::word(format.negate(x)),
    },
    Function {
        name: "lround",
        number: 0x18,
        operands: Operands::Pattern,
        library: &[
            (BINARY64, |x, _| ew_lround_f64(x).into()),
            (BINARY32, |x, _| ew_lround_f32(x as u32).into()),
        ],
        reference: |format, x, _| rounding::lround(format, x),
        short: |format, x, _| short::rounding::lround(format, x),
    },
    Function {
        name: "classify",
        number: 0x19,
        operands: Operands::Pattern,
        library: &[
            (BINARY64, |x, _| Answer::word(ew_classify_f64(x).into())),
            (BINARY32, |x, _| {
                Answer::word(ew_classify_f32(x as u32).into())
            }),
        ],
        reference: |format, x, _| Answer::word(format.classify(x) as u64),
        short: |format, x, _| Answer::word(format.classify(x) as u64),
    },
    Function {
        name: "f16_to_f32",
        number: 0x1a,
        operands: Operands::Pattern,
        library: &[(BINARY16, |x, _| {
            Answer::word(ew_f16_to_f32(x as u16).into())
        })],
        reference: |format, x, _| conversion::converted(format, &BINARY32, x),
        short: |format, x, _| short::conversion::converted(format, &BINARY32, x),
    },
    Function {
        name: "f32_to_f16",
        number: 0x1b,
        operands: Operands::PatternToHalf,
        library: &[(BINARY32, |x, _| ew_f32_to_f16(x as u32).into())],
        reference: |format, x, _| conversion::converted(format, &BINARY16, x),
        short: |format, x, _| short::conversion::converted(format, &BINARY16, x),
    },
    Function {
        name: "fmin",
        number: 0x20,
        operands: Operands::Patterns,
        library: &[
            (BINARY64, |x, y| Answer::word(ew_fmin_f64(x, y))),
            (BINARY32, |x, y| {
                Answer::word(ew_fmin_f32(x as u32, y as u32).into())
            }),
        ],
        reference: |format, x, y| Answer::word(order::fmin(format, x, y)),
        short: |format, x, y| Answer::word(short::order::fmin(format, x, y)),
    },
    Function {
        name: "fmax",
        number: 0x21,
        operands: Operands::Patterns,
        library: &[
            (BINARY64, |x, y| Answer::word(ew_fmax_f64(x, y))),
            (BINARY32, |x, y| {
                Answer::word(ew_fmax_f32(x as u32, y as u32).into())
            }),
        ],
        reference: |format, x, y| Answer::word(order::fmax(format, x, y)),
        short: |format, x, y| Answer::word(short::order::fmax(format, x, y)),
    },
    Function {
        name: "fmod",
        number: 0x22,
        operands: Operands::Patterns,
        library: &[
            (BINARY64, |x, y| ew_fmod_f64(x, y).into()),
            (BINARY32, |x, y| ew_fmod_f32(x as u32, y as u32).into()),
        ],
        reference: |format, x, y| fmod::fmod(format, x, y),
        short: |format, x, y| short::fmod::fmod(format, x, y),
    },
    Function {
        name: "ldexp",
        number: 0x23,
        operands: Operands::PatternAndWhole,
        library: &[
            (BINARY64, |x, n| ew_ldexp_f64(x, n as i64).into()),
            (BINARY32, |x, n| ew_ldexp_f32(x as u32, n as i64).into()),
        ],
        reference: |format, x, n| ldexp::ldexp(format, x, n as i64),
        short: |format, x, n| short::ldexp::ldexp(format, x, n as i64),
    },
    Function {
        name: "nextafter",
        number: 0x24,
        operands: Operands::Patterns,
        library: &[
            (BINARY64, |x, y| ew_nextafter_f64(x, y).into()),
            (BINARY32, |x, y| ew_nextafter_f32(x as u32, y as u32).into()),
        ],
        reference: |format, x, y| order::nextafter(format, x, y),
        short: |format, x, y| short::order::nextafter(format, x, y),
    },
    Function {
        name: "frexp",
        number: 0x25,
        operands: Operands::Pattern,
        library: &[
            (BINARY64, |x, _| ew_frexp_f64(x).into()),
            (BINARY32, |x, _| ew_frexp_f32(x as u32).into()),
        ],
        reference: |format, x, _| parts::frexp(format, x),
        short: |format, x, _| short::parts::frexp(format, x),
    },
    Function {
        name: "remainder",
        number: 0x26,
        operands: Operands::Division,
        library: &[
            (BINARY64, |x, y| ew_remainder_f64(x, y).into()),
            (BINARY32, |x, y| ew_remainder_f32(x as u32, y as u32).into()),
        ],
        reference: |format, x, y| remainder::remainder(format, x, y),
        short: |format, x, y| short::remainder::remainder(format, x, y),
    },
    Function {
        name: "remquo",
        number: 0x27,
        operands: Operands::Division,
        library: &[
            (BINARY64, |x, y| ew_remquo_f64(x, y).into()),
            (BINARY32, |x, y| ew_remquo_f32(x as u32, y as u32).into()),
        ],
        reference: |format, x, y| remainder::remquo(format, x, y),
        short: |format, x, y| short::remainder::remquo(format, x, y),
    },
];

/// The formats of document 01, which all its functions have.
pub const FORMATS: [Format; 2] = [BINARY64, BINARY32];

/// The same and the halves of W-201, which have the five roundings.
pub const ROUNDED_FORMATS: [Format; 3] = [BINARY64, BINARY32, BINARY16];

pub fn format_of_width(width: u32) -> Option<&'static Format> {
    ROUNDED_FORMATS
        .iter()
        .find(|format| format.width() == width)
}

impl Function {
    pub fn named(name: &str) -> Option<&'static Function> {
        FUNCTIONS.iter().find(|function| function.name == name)
    }

    /// The function that a recipe step with this opcode works by, where there is one.
    pub fn of_step(opcode: u8) -> Option<&'static Function> {
        match opcode {
            0x24 => Function::named("remainder"),
            _ => FUNCTIONS.iter().find(|function| function.number == opcode),
        }
    }

    /// The formats of an operand that the library has the function for.
    pub fn formats(&self) -> impl Iterator<Item = &'static Format> {
        self.library.iter().map(|(format, _)| format)
    }

    pub fn is_at(&self, format: &Format) -> bool {
        self.formats().any(|other| other == format)
    }

    /// The library's function at this format.
    pub fn library(&self, format: &Format) -> Library {
        let mut functions = self.library.iter();
        match functions.find(|(other, _)| other == format) {
            Some((_, function)) => *function,
            None => panic!(
                "the library has no {} of {} bits",
                self.name,
                format.width()
            ),
        }
    }
}
