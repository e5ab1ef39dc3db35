//! The sheet of a recipe: refusals 10 to 17, 40, and 20 to 22 as stated for the sheet, in that
//! order; and its bytes.

use super::operations::{Kind, Source, Way};
use super::ranges::Range;
use super::text::Step;
use super::{marks, text, Refusal};

/// Step 2 digits, kind 2, mark 2, low 16, high 16, and a line feed.
pub const LINE: usize = 39;

/// The kind of a step's value, its mark, and the range that the range rules give.
#[derive(Clone, Copy, Debug, PartialEq, Eq)]
pub struct StepRange {
    pub kind: Kind,
    pub mark: bool,
    pub range: Range,
}

/// Every step's range and mark, `lent` being the bytes of memory that the caller lends; or the refusal.
pub fn sheet(way: Way, text: &[u8], lent: usize) -> Result<Vec<StepRange>, Refusal> {
    let steps = text::steps(way, text)?;
    if lent < LINE * steps.len() {
        return Err(Refusal::whole_call(40));
    }
    ranges(way, &steps)
}

/// Every step's range and mark, steps in order.
pub fn ranges(way: Way, steps: &[Step]) -> Result<Vec<StepRange>, Refusal> {
    let mut ranges: Vec<StepRange> = Vec::with_capacity(steps.len());
    for step in steps {
        let at = |place: usize| ranges[place].range;
        let range = match &step.operation.source {
            Source::Input => Ok(Range {
                low: step.p,
                high: step.q,
            }),
            Source::Constant => Ok(Range::of(step.p)),
            Source::One { function, .. } => function.range(way, at(step.a), Range::of(0)),
            Source::Two { function, .. } => function.range(way, at(step.a), at(step.b)),
        };
        let range = range.map_err(|number| Refusal::at(number, ranges.len()))?;
        let mark_of = |used: bool, place: usize| used && ranges[place].mark;
        let a = mark_of(step.operation.uses_a(), step.a);
        let b = mark_of(step.operation.uses_b(), step.b);
        let mark = marks::is_marked(way, step.operation, range, a, b);
        let kind = step.operation.kind;
        ranges.push(StepRange { kind, mark, range });
    }
    Ok(ranges)
}

/// The sheet's lines.
pub fn bytes(ranges: &[StepRange]) -> Vec<u8> {
    let line = |(step, shown): (usize, &StepRange)| {
        let (kind, mark) = (shown.kind as u8, shown.mark as u8);
        let Range { low, high } = shown.range;
        format!("{step:02x}{kind:02x}{mark:02x}{low:016x}{high:016x}\n")
    };
    let lines: String = ranges.iter().enumerate().map(line).collect();
    lines.into_bytes()
}
