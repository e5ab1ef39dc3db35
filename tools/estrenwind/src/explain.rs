//! `estrenwind explain`: why a sheet is refused, in a sentence, and what would mend it.

use crate::failure::Status;
use crate::mend;
use crate::recipe::{range_text, Recipe};
use crate::sheet::{ranges, Shown};
use crate::table::{table, wrapped, Row};
use estrenwind::{Cause, Explanation, Range};

/// What the library says of a recipe that is refused a sheet, with the ranges of the steps before.
pub struct Reason<'a> {
    pub recipe: &'a Recipe,
    pub cause: Cause,
    pub step: usize,
    pub operand: usize,
    pub ranges: Vec<Range>,
}

impl<'a> Reason<'a> {
    /// None where the sheet passes.
    pub fn of(recipe: &'a Recipe) -> Option<Reason<'a>> {
        let Ok(Explanation::Refused {
            cause,
            step,
            operand,
        }) = estrenwind::explain(&recipe.text)
        else {
            return None;
        };
        // The steps before are a recipe that passes, if there are any.
        let ranges = ranges(&recipe.front(step)).unwrap_or_default();
        Some(Reason {
            recipe,
            cause,
            step,
            operand,
            ranges,
        })
    }

    fn name(&self, k: usize) -> &str {
        &self.recipe.names[k]
    }

    /// `w, whose range 0 .. 64`
    fn whose(&self, k: usize) -> String {
        let range = &self.ranges[k];
        format!(
            "{}, whose range {}",
            self.name(k),
            range_text(range.kind, range.low, range.high)
        )
    }

    /// The sentence, without its full stop.
    pub fn sentence(&self) -> String {
        let operation = self.recipe.steps[self.step].operation.name();
        let operand = self.whose(self.operand);
        let other = self.recipe.steps[self.step].b;
        match self.cause {
            Cause::DivisorHoldsZero => format!("{operation} by {operand} holds zero"),
            Cause::DividendLowInfinite
            | Cause::LdexpLowInfinite
            | Cause::ALowInfinite
            | Cause::BLowInfinite => {
                format!("{operation} of {operand} has an infinite low end")
            }
            Cause::DividendHighInfinite
            | Cause::LdexpHighInfinite
            | Cause::AHighInfinite
            | Cause::BHighInfinite => {
                format!("{operation} of {operand} has an infinite high end")
            }
            Cause::LroundLow => {
                format!("{operation} of {operand} has a low end that does not fit 64 bits")
            }
            Cause::LroundHigh => {
                format!("{operation} of {operand} has a high end that does not fit 64 bits")
            }
            Cause::WholeLow | Cause::WholeHigh => {
                let end = if self.cause == Cause::WholeLow {
                    "low"
                } else {
                    "high"
                };
                format!("{operation} of {operand}, and {}: the {end} end of the answer does not fit 64 bits", self.whose(other))
                    .replace(", whose range", " from")
            }
            Cause::LdexpLowOverflows | Cause::LdexpHighOverflows => {
                let end = if self.cause == Cause::LdexpLowOverflows {
                    "low"
                } else {
                    "high"
                };
                format!("{operation} of {operand}, by {}: the {end} end of the answer is beyond every double", self.whose(other))
                    .replace(", whose range", " from")
            }
            Cause::TooBigLow | Cause::TooBigHigh => {
                let end = if self.cause == Cause::TooBigLow {
                    "low"
                } else {
                    "high"
                };
                format!("{operation} of {operand} has a {end} end over 2^53 in magnitude, where not every whole number has a double")
            }
            Cause::AnswerLowOverflows | Cause::AnswerHighOverflows => {
                let end = if self.cause == Cause::AnswerLowOverflows {
                    "low"
                } else {
                    "high"
                };
                format!("{operation} of {operand}, and {}: the {end} end of the answer is beyond every double", self.whose(other))
                    .replace(", whose range", " within")
            }
            _ => Explanation::Refused {
                cause: self.cause,
                step: self.step,
                operand: self.operand,
            }
            .to_string(),
        }
    }
}

/// Why the sheet is refused; nothing where it passes.
pub fn sentence(recipe: &Recipe) -> String {
    Reason::of(recipe).map_or(String::new(), |reason| reason.sentence())
}

/// What would mend it: each was tried, and the library takes the step.
pub fn mends(recipe: &Recipe) -> Vec<String> {
    Reason::of(recipe).map_or(Vec::new(), |reason| mend::mends(&reason))
}

pub fn explain(recipe: &Recipe) -> Shown {
    let Some(reason) = Reason::of(recipe) else {
        return Shown {
            output: format!("{}: the sheet passes\n", recipe.file),
            message: String::new(),
            status: Status::Well,
        };
    };
    let mut rows: Vec<Row> = reason
        .ranges
        .iter()
        .map(|range| Row::of_range(recipe, range))
        .collect();
    rows.push(Row {
        low: "refused".into(),
        ..Row::of_step(recipe, reason.step)
    });
    let number = match estrenwind::sheet(&recipe.text, &mut [0; estrenwind::MOST_SHEET]) {
        Err(refused) => refused.fault.number(),
        Ok(_) => 0,
    };
    let heading = format!(
        "{}: no sheet: refused {number} at step {}, {}",
        recipe.file,
        reason.step,
        reason.name(reason.step)
    );
    let mends = mend::mends(&reason);
    let advice = if mends.is_empty() {
        mend::general(reason.cause).to_owned()
    } else {
        mends.join(", or ")
    };
    Shown {
        output: format!(
            "{}\n{}\n{}",
            wrapped(&heading),
            table(&rows),
            wrapped(&format!("{}: {advice}", reason.sentence()))
        ),
        message: String::new(),
        status: Status::RecipeRefused,
    }
}
