//! The two rules for the zeros in fmin and fmax beside each other, over recipes and frames: W-202's,
//! by which -0 is below +0, and document 01's without it, by which the two are equal and the first
//! is given (`Way::FirstOfEqual`).
//!
//! "Sheet ends and run words that come from fmin or fmax may change a zero's sign; nothing else
//! changes. No new refusals." So by either rule a recipe is refused with the same number at the same
//! place, or not at all, and for the same reason; and each word and each end has the same bits, or is
//! a zero by both. Such a difference starts at fmin or fmax. What becomes of it at the steps that
//! stand on them:
//!
//! | step | a word | an end |
//! |---|---|---|
//! | floor, ceil, trunc, round, nearbyint | handed on: a zero returns unchanged | handed on |
//! | negate | handed on, flipped | handed on to the other end, flipped |
//! | ldexp | handed on from A: a zero returns unchanged | handed on |
//! | fmin, fmax | handed on where that zero is chosen, else ended | the same |
//! | modf's fraction | handed on: the fraction of a zero has its sign | ended: +0 |
//! | fmod | handed on from A; a zero B is refusal 20 whatever its sign | ended: +0; in b refusal 20 |
//! | remainder | the same as fmod's | ended: of magnitudes; in b refusal 20 |
//! | fabs | ended: +0 | ended: +0 |
//! | lround | ended: whole numbers have one zero | ended |
//! | add, subtract | handed on where both are zeros and the other is -0, or +0 taken away; else ended | the same |
//! | multiply | handed on, unless both operands differ: then the signs cancel | the same; or ended, where another product is chosen |
//! | inputs, constants, 30 to 32 | no operand is a double | the same |
//!
//! The ends of multiply are the fmin and the fmax of four products (W-208), so that a difference starts
//! there too.
//!
//! `meeting` makes recipes in which zeros of both signs meet, as they seldom do in those of the other
//! tests. `difference` is the check of one call, `counts` what was met, `table` and `example` print
//! it.

mod counts;
mod difference;
mod example;
mod meeting;
mod table;

pub use counts::Counts;
pub use difference::{Fate, Part};

use super::faults::{damaged, REFUSALS, SHEET_REFUSALS};
use super::growing::{grow, grow_sheet};
use super::reasons::{FACTS, PLACES};
use super::{frame, Draft, ExplainCall, RunCall, SheetCall};
use crate::comparison::on_all_cores;
use crate::patterns::Random;

/// From +0 to 2 and from -0 to 3, fmin and fmax in both orders, fmin's negation and magnitude.
pub const BOTH_ORDERS: &str = "\
01000000000000000000004000000000000000
01000080000000000000004008000000000000
20000100000000000000000000000000000000
20010000000000000000000000000000000000
21000100000000000000000000000000000000
21010000000000000000000000000000000000
17020000000000000000000000000000000000
16020000000000000000000000000000000000
";

/// Frames that a recipe with inputs is run over.
const FRAMES: usize = 4;

/// Both rules on recipes as the other tests have them.
pub fn as_elsewhere() -> Counts {
    compare(1_500, Calls::as_elsewhere)
}

/// Both rules on recipes in which zeros of both signs meet.
pub fn of_meeting_zeros() -> Counts {
    compare(5_000, Calls::of_meeting_zeros)
}

/// Both rules on the calls of so many seeds, on all cores.
fn compare(seeds: u64, calls: fn(&mut Random) -> Calls) -> Counts {
    on_all_cores(seeds, Counts::join, |seed, counts| {
        counts.add(&calls(&mut Random::new(seed)));
        None
    })
}

/// What both rules are tried on.
#[derive(Default)]
pub struct Calls {
    pub runs: Vec<RunCall>,
    pub sheets: Vec<SheetCall>,
    pub explanations: Vec<ExplainCall>,
}

impl Calls {
    /// Recipes grown along a frame and along ranges, without and with a step that is to refuse, and
    /// turned down for some reason; and calls with every fault.
    pub fn as_elsewhere(random: &mut Random) -> Calls {
        let mut calls = Calls::default();
        for grow in [grow, grow_sheet] {
            for refusing in [&[][..]; 8].into_iter().chain([&[20][..], &[21], &[22]]) {
                let plan = random.plan();
                let plan = random.with_refusing(plan, refusing);
                let (draft, _) = grow(random, &plan);
                calls.add(random, &draft);
            }
        }
        let (facts, place) = (random.one_of(&FACTS), random.one_of(&PLACES));
        let (draft, _) = random.turned_down(&facts, place, false);
        calls.add(random, &draft);
        let runs = REFUSALS.map(|fault| damaged(random, &[fault]).0);
        calls.runs.extend(runs);
        let sheets = SHEET_REFUSALS.map(|fault| damaged(random, &[fault]).0);
        calls.sheets.extend(sheets);
        calls
    }

    pub fn of_meeting_zeros(random: &mut Random) -> Calls {
        let mut calls = Calls::default();
        for _ in 0..20 {
            let draft = random.meeting();
            calls.add(random, &draft);
        }
        calls
    }

    /// The sheet of a recipe, its explanation, and runs over its own frame and over others with
    /// zeros.
    fn add(&mut self, random: &mut Random, draft: &Draft) {
        self.sheets.push(draft.sheet_call());
        self.explanations.push(draft.explain_call());
        let own = draft.run_call();
        let others = if draft.inputs().is_empty() {
            0
        } else {
            FRAMES - 1
        };
        for _ in 0..others {
            self.runs.push(RunCall {
                frame: frame(&random.words_with_zeros(&draft.lines)),
                ..own.clone()
            });
        }
        self.runs.push(own);
    }
}
