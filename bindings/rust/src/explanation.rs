//! Why a recipe's sheet is refused.

use crate::c;
use crate::recipe::TurnedDown;
use std::fmt;

/// The fact for which a step is turned down.
///
/// Later versions may have more. A code of the library that this version has no name for is kept:
///
/// ```
/// use estrenwind::Cause;
///
/// assert_eq!(Cause::from(1), Cause::DivisorHoldsZero);
/// assert_eq!(Cause::from(99), Cause::Other(99));
/// assert_eq!(Cause::from(99).code(), 99);
/// ```
#[derive(Clone, Copy, Debug, PartialEq, Eq, Hash)]
#[non_exhaustive]
pub enum Cause {
    /// 01: the divisor of fmod or remainder may be zero.
    DivisorHoldsZero,
    /// 02: the dividend of fmod or remainder has an infinite low end.
    DividendLowInfinite,
    /// 03: the dividend of fmod or remainder has an infinite high end.
    DividendHighInfinite,
    /// 04: lround of the low end does not fit 64 bits.
    LroundLow,
    /// 05: lround of the high end does not fit 64 bits.
    LroundHigh,
    /// 06: the low end of a sum or difference does not fit 64 bits.
    WholeLow,
    /// 07: the high end of a sum or difference does not fit 64 bits.
    WholeHigh,
    /// 08: what ldexp scales has an infinite low end.
    LdexpLowInfinite,
    /// 09: what ldexp scales has an infinite high end.
    LdexpHighInfinite,
    /// 0a: ldexp of the low end overflows.
    LdexpLowOverflows,
    /// 0b: ldexp of the high end overflows.
    LdexpHighOverflows,
    /// 0c: the low end is over 2^53 in magnitude and may have no exact double.
    TooBigLow,
    /// 0d: the high end is over 2^53 in magnitude and may have no exact double.
    TooBigHigh,
    /// 0e: A of add, subtract or multiply has an infinite low end.
    ALowInfinite,
    /// 0f: A of add, subtract or multiply has an infinite high end.
    AHighInfinite,
    /// 10: B of add, subtract or multiply has an infinite low end.
    BLowInfinite,
    /// 11: B of add, subtract or multiply has an infinite high end.
    BHighInfinite,
    /// 12: the low end of what add, subtract or multiply gives overflows.
    AnswerLowOverflows,
    /// 13: the high end of what add, subtract or multiply gives overflows.
    AnswerHighOverflows,
    /// The reason of this code, none of those above.
    Other(u64),
}

/// The codes of those that have a name, from 1 on.
const NAMED: [Cause; 19] = [
    Cause::DivisorHoldsZero,
    Cause::DividendLowInfinite,
    Cause::DividendHighInfinite,
    Cause::LroundLow,
    Cause::LroundHigh,
    Cause::WholeLow,
    Cause::WholeHigh,
    Cause::LdexpLowInfinite,
    Cause::LdexpHighInfinite,
    Cause::LdexpLowOverflows,
    Cause::LdexpHighOverflows,
    Cause::TooBigLow,
    Cause::TooBigHigh,
    Cause::ALowInfinite,
    Cause::AHighInfinite,
    Cause::BLowInfinite,
    Cause::BHighInfinite,
    Cause::AnswerLowOverflows,
    Cause::AnswerHighOverflows,
];

impl Cause {
    /// The reason's code.
    pub fn code(self) -> u64 {
        match self {
            Cause::Other(code) => code,
            named => 1 + NAMED.iter().position(|&cause| cause == named).unwrap() as u64,
        }
    }
}

impl From<u64> for Cause {
    /// The cause of a code.
    fn from(code: u64) -> Cause {
        let index = (code as usize).wrapping_sub(1);
        NAMED.get(index).copied().unwrap_or(Cause::Other(code))
    }
}

/// What [`explain`] says of a recipe that reads.
#[derive(Clone, Copy, Debug, PartialEq, Eq, Hash)]
#[non_exhaustive]
pub enum Explanation {
    /// Its sheet passes, given room.
    Passes,
    /// Its sheet is refused.
    Refused {
        /// The fact for which it is.
        cause: Cause,
        /// The step that is refused.
        step: usize,
        /// The step of its operand that the fact is about.
        operand: usize,
    },
}

impl fmt::Display for Explanation {
    fn fmt(&self, f: &mut fmt::Formatter) -> fmt::Result {
        let Explanation::Refused {
            cause,
            step,
            operand,
        } = self
        else {
            return f.write_str("the sheet passes");
        };
        write!(f, "step {step}: ")?;
        match cause {
            Cause::DivisorHoldsZero => write!(f, "the divisor, step {operand}, may be zero"),
            Cause::DividendLowInfinite => {
                write!(f, "the dividend, step {operand}, may be -infinity")
            }
            Cause::DividendHighInfinite => {
                write!(f, "the dividend, step {operand}, may be infinity")
            }
            Cause::LroundLow => {
                write!(f, "lround of the low end of step {operand} does not fit 64 bits")
            }
            Cause::LroundHigh => {
                write!(f, "lround of the high end of step {operand} does not fit 64 bits")
            }
            Cause::WholeLow => write!(
                f,
                "the low end of the answer, whose A is step {operand}, does not fit 64 bits"
            ),
            Cause::WholeHigh => write!(
                f,
                "the high end of the answer, whose A is step {operand}, does not fit 64 bits"
            ),
            Cause::LdexpLowInfinite => write!(f, "ldexp of step {operand}, which may be -infinity"),
            Cause::LdexpHighInfinite => write!(f, "ldexp of step {operand}, which may be infinity"),
            Cause::LdexpLowOverflows => {
                write!(f, "ldexp of the low end of step {operand} overflows")
            }
            Cause::LdexpHighOverflows => {
                write!(f, "ldexp of the high end of step {operand} overflows")
            }
            Cause::TooBigLow => write!(
                f,
                "the low end of step {operand} is over 2^53 in magnitude, and a double may not hold it"
            ),
            Cause::TooBigHigh => write!(
                f,
                "the high end of step {operand} is over 2^53 in magnitude, and a double may not hold it"
            ),
            Cause::ALowInfinite => write!(f, "A, step {operand}, may be -infinity"),
            Cause::AHighInfinite => write!(f, "A, step {operand}, may be infinity"),
            Cause::BLowInfinite => write!(f, "B, step {operand}, may be -infinity"),
            Cause::BHighInfinite => write!(f, "B, step {operand}, may be infinity"),
            Cause::AnswerLowOverflows => write!(
                f,
                "the low end of the answer, whose A is step {operand}, overflows"
            ),
            Cause::AnswerHighOverflows => write!(
                f,
                "the high end of the answer, whose A is step {operand}, overflows"
            ),
            Cause::Other(code) => write!(f, "reason {code}, about step {operand}"),
        }
    }
}

/// Says why the sheet of a recipe is refused: which step, for which fact about the range of which operand. Of several facts that are true of the
/// step it is the first by its code.
///
/// ```
/// use estrenwind::{explain, Cause, Explanation};
///
/// // Two inputs, from -1 to 1 and from 0 to 1, and fmod of the first by the second.
/// let recipe = b"010000bff00000000000003ff0000000000000\n\
///                01000000000000000000003ff0000000000000\n\
///                22000100000000000000000000000000000000\n";
/// let why = explain(recipe)?;
/// assert_eq!(
///     why,
///     Explanation::Refused { cause: Cause::DivisorHoldsZero, step: 2, operand: 1 }
/// );
/// assert_eq!(why.to_string(), "step 2: the divisor, step 1, may be zero");
///
/// // Two lights, each up to the largest double, and the sum of the two.
/// let recipe = b"01000000000000000000007fefffffffffffff\n\
///                01000000000000000000007fefffffffffffff\n\
///                40000100000000000000000000000000000000\n";
/// assert_eq!(
///     explain(recipe)?.to_string(),
///     "step 2: the high end of the answer, whose A is step 0, overflows"
/// );
/// # Ok::<(), estrenwind::TurnedDown>(())
/// ```
pub fn explain(recipe: &[u8]) -> Result<Explanation, TurnedDown> {
    // SAFETY: the pointer and the length are those of a slice, and nothing is written.
    let answer = unsafe { c::ew_explain(recipe.as_ptr(), recipe.len()) };
    match (answer.refusal, answer.reason) {
        (0, 0) => Ok(Explanation::Passes),
        (0, reason) => Ok(Explanation::Refused {
            cause: Cause::from(reason),
            step: answer.step as usize,
            operand: answer.operand as usize,
        }),
        (refusal, _) => Err(TurnedDown::of(refusal, answer.place)),
    }
}

#[cfg(test)]
mod tests {
    use super::*;

    #[test]
    fn codes_and_causes_are_one_to_one() {
        for code in 1..=19 {
            let cause = Cause::from(code);
            assert_ne!(cause, Cause::Other(code));
            assert_eq!(cause.code(), code);
        }
        for code in [0, 20, u64::MAX] {
            assert_eq!(Cause::from(code), Cause::Other(code));
            assert_eq!(Cause::Other(code).code(), code);
        }
    }

    #[test]
    fn every_cause_is_a_sentence_that_names_its_steps() {
        for code in 1..=20 {
            let explanation = Explanation::Refused {
                cause: Cause::from(code),
                step: 71,
                operand: 42,
            };
            let text = explanation.to_string();
            assert!(
                text.starts_with("step 71: ") && text.contains("step 42"),
                "{text}"
            );
        }
    }
}
