//! The library's sheets of recipes against the reference's: refusal, place, steps, and every byte of
//! the lent memory; its ranges and marks against what the papers say of them; and the promise that a
//! passed sheet makes of every run. What runs and sheets are both tried on is in `recipes::walks`.

mod agreement;
mod bytes;
#[cfg(target_arch = "x86_64")]
mod environment;
mod marks;
mod memory;
mod paper;
mod promise;
mod ranges;
mod wrong_ranges;
mod wrong_sums;

use estrenwind_tests::recipes::comparison::Outcome;
use estrenwind_tests::recipes::shown::{self, Shown};
use estrenwind_tests::recipes::{Call, SheetCall};
use estrenwind_tests::reference::recipe::sheet;

/// Where the lent memory starts in an outcome's.
const BEFORE: usize = SheetCall::BEFORE;

/// The lines of a passed sheet.
fn shown_lines(outcome: &Outcome<SheetCall>) -> Vec<Shown> {
    let steps = outcome.answer.steps as usize;
    shown::read(&outcome.memory[BEFORE..][..sheet::LINE * steps])
}
