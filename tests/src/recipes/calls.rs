//! What the library is called with: a run, a sheet, or an explanation. Each reads the text of a
//! recipe, and the first two write to memory that is lent, so what is said of all is said over
//! `Call`. A run of frame lines, which is one too, is in `lines`.

use super::faults::{EXPLAIN_REFUSALS, REFUSALS, SHEET_REFUSALS};
use super::growing::{grow, grow_sheet, Grow};
use super::Draft;
use crate::library::{self, ExplainAnswer, RunAnswer, SheetAnswer};
use crate::reference::recipe::{
    explain, run, sheet, Explanation, Refusal, StepRange, StepValue, Way,
};
use std::fmt;

/// A run, a run of frame lines, a sheet or an explanation.
pub trait Call: Clone + fmt::Debug + fmt::Display + PartialEq + Send + Sync {
    type Answer: Copy + fmt::Debug + fmt::Display + PartialEq + From<Refusal>;
    /// A piece of the lent memory.
    type Unit: Copy + fmt::Debug + PartialEq;
    /// What the reference works out where it gives no refusal.
    type Worked: fmt::Debug + PartialEq;

    /// Every refusal that it can be given.
    const REFUSALS: &'static [u64];
    /// Every code of a reason that it can be given.
    const REASONS: &'static [u64] = &[];
    /// Makes recipes that it isn't refused for, unless that is planned.
    const GROW: Grow;
    /// Units around the lent memory that it may not touch.
    const BEFORE: usize;
    const BEYOND: usize;
    /// Units that some calls are lent and don't need, at most.
    const MOST_SPARE: u64;

    /// The call of a recipe, with memory for just its steps.
    fn of(draft: &Draft) -> Self;
    fn text(&self) -> &[u8];
    fn text_mut(&mut self) -> &mut Vec<u8>;
    /// None where it takes no frame.
    fn frame_mut(&mut self) -> Option<&mut Vec<u8>>;
    /// Units of memory.
    fn lent(&self) -> usize;
    fn lend(&mut self, lent: usize);

    /// What stands at a place of the memory before a call: nothing that a call would write.
    fn pattern(place: usize) -> Self::Unit;
    /// The library's answer, over this memory.
    fn library(&self, memory: &mut [Self::Unit]) -> Self::Answer;
    /// What the reference works out, or its refusal.
    fn reference(&self, way: Way) -> Result<Self::Worked, Refusal>;
    /// The answer that tells of it.
    fn answer(worked: &Self::Worked) -> Self::Answer;
    /// What it leaves in the memory, from its start.
    fn written(worked: &Self::Worked) -> Vec<Self::Unit>;
    /// The refusal in an answer, number 0 where there is none.
    fn refusal(answer: Self::Answer) -> Refusal;
    /// The code of the reason in an answer, 0 where there is none.
    fn reason(_: Self::Answer) -> u64 {
        0
    }
    /// Tells where the memory, with what is around it, isn't what was expected. Nothing where it is.
    fn told(memory: &[Self::Unit], expected: &[Self::Unit]) -> String;

    /// The memory as it is before a call, with the units around it.
    fn filled(&self) -> Vec<Self::Unit> {
        let places = 0..Self::BEFORE + self.lent() + Self::BEYOND;
        places.map(Self::pattern).collect()
    }
}

/// What a run is called with.
#[derive(Clone, Debug, PartialEq, Eq)]
pub struct RunCall {
    pub text: Vec<u8>,
    pub frame: Vec<u8>,
    /// Words of memory.
    pub lent: usize,
}

impl Call for RunCall {
    type Answer = RunAnswer;
    type Unit = u64;
    type Worked = Vec<StepValue>;

    const REFUSALS: &'static [u64] = &REFUSALS;
    const GROW: Grow = grow;
    const BEFORE: usize = 0;
    const BEYOND: usize = 3;
    const MOST_SPARE: u64 = 5;

    fn of(draft: &Draft) -> RunCall {
        draft.run_call()
    }

    fn text(&self) -> &[u8] {
        &self.text
    }

    fn text_mut(&mut self) -> &mut Vec<u8> {
        &mut self.text
    }

    fn frame_mut(&mut self) -> Option<&mut Vec<u8>> {
        Some(&mut self.frame)
    }

    fn lent(&self) -> usize {
        self.lent
    }

    fn lend(&mut self, lent: usize) {
        self.lent = lent;
    }

    fn pattern(place: usize) -> u64 {
        (place as u64 + 1).wrapping_mul(0xd1b5_4a32_d192_ed03)
    }

    fn library(&self, memory: &mut [u64]) -> RunAnswer {
        library::run(&self.text, &self.frame, memory)
    }

    fn reference(&self, way: Way) -> Result<Vec<StepValue>, Refusal> {
        run(way, &self.text, &self.frame, self.lent)
    }

    fn answer(values: &Vec<StepValue>) -> RunAnswer {
        RunAnswer::from(*values.last().expect("a recipe has a step"))
    }

    fn written(values: &Vec<StepValue>) -> Vec<u64> {
        values.iter().map(|value| value.word).collect()
    }

    fn refusal(answer: RunAnswer) -> Refusal {
        let (number, place) = (answer.refusal, answer.place);
        Refusal { number, place }
    }

    fn told(memory: &[u64], expected: &[u64]) -> String {
        let places = memory.iter().zip(expected).enumerate();
        let changed = places.filter(|(_, (x, y))| x != y);
        changed
            .take(4)
            .map(|(place, (x, y))| format!("word {place}: {x:016x}, expected {y:016x}\n"))
            .collect()
    }
}

impl fmt::Display for RunCall {
    fn fmt(&self, f: &mut fmt::Formatter) -> fmt::Result {
        write_text(f, &self.text)?;
        writeln!(
            f,
            "frame, {} bytes: {}",
            self.frame.len(),
            self.frame.escape_ascii()
        )?;
        write!(f, "{} words lent", self.lent)
    }
}

/// What a sheet is called with.
#[derive(Clone, Debug, PartialEq, Eq)]
pub struct SheetCall {
    pub text: Vec<u8>,
    /// Bytes of memory.
    pub lent: usize,
}

/// The lent memory starts at an odd address.
impl Call for SheetCall {
    type Answer = SheetAnswer;
    type Unit = u8;
    type Worked = Vec<StepRange>;

    const REFUSALS: &'static [u64] = &SHEET_REFUSALS;
    const GROW: Grow = grow_sheet;
    const BEFORE: usize = 5;
    const BEYOND: usize = 40;
    const MOST_SPARE: u64 = 2 * sheet::LINE as u64;

    fn of(draft: &Draft) -> SheetCall {
        draft.sheet_call()
    }

    fn text(&self) -> &[u8] {
        &self.text
    }

    fn text_mut(&mut self) -> &mut Vec<u8> {
        &mut self.text
    }

    fn frame_mut(&mut self) -> Option<&mut Vec<u8>> {
        None
    }

    fn lent(&self) -> usize {
        self.lent
    }

    fn lend(&mut self, lent: usize) {
        self.lent = lent;
    }

    fn pattern(place: usize) -> u8 {
        0x80 | (place as u8).wrapping_mul(0x4d)
    }

    fn library(&self, memory: &mut [u8]) -> SheetAnswer {
        library::sheet(&self.text, memory)
    }

    fn reference(&self, way: Way) -> Result<Vec<StepRange>, Refusal> {
        sheet(way, &self.text, self.lent)
    }

    fn answer(ranges: &Vec<StepRange>) -> SheetAnswer {
        SheetAnswer::passed(ranges.len())
    }

    fn written(ranges: &Vec<StepRange>) -> Vec<u8> {
        sheet::bytes(ranges)
    }

    fn refusal(answer: SheetAnswer) -> Refusal {
        let (number, place) = (answer.refusal, answer.place);
        Refusal { number, place }
    }

    fn told(memory: &[u8], expected: &[u8]) -> String {
        let places = memory.iter().zip(expected);
        let changed = places.filter(|(x, y)| x != y).count();
        let lines = |memory: &[u8]| {
            let lent = &memory[Self::BEFORE..memory.len() - Self::BEYOND];
            lent.escape_ascii().to_string().replace("\\n", "\n")
        };
        let [shown, wanted] = [memory, expected].map(lines);
        match changed {
            0 => String::new(),
            _ => format!("{changed} bytes differ:\n{shown}\nexpected:\n{wanted}\n"),
        }
    }
}

impl fmt::Display for SheetCall {
    fn fmt(&self, f: &mut fmt::Formatter) -> fmt::Result {
        write_text(f, &self.text)?;
        write!(f, "{} bytes lent", self.lent)
    }
}

/// What an explanation is called with.
#[derive(Clone, Debug, PartialEq, Eq)]
pub struct ExplainCall {
    pub text: Vec<u8>,
}

/// No memory is lent. The text lies in its place, at an odd address: a call leaves it, and what is
/// around it, as it was.
impl Call for ExplainCall {
    type Answer = ExplainAnswer;
    type Unit = u8;
    type Worked = Option<Explanation>;

    const REFUSALS: &'static [u64] = &EXPLAIN_REFUSALS;
    const REASONS: &'static [u64] = &[
        1, 2, 3, 4, 5, 6, 7, 8, 9, 10, 11, 12, 13, 14, 15, 16, 17, 18, 19,
    ];
    const GROW: Grow = grow_sheet;
    const BEFORE: usize = 5;
    const BEYOND: usize = 40;
    const MOST_SPARE: u64 = 0;

    fn of(draft: &Draft) -> ExplainCall {
        draft.explain_call()
    }

    fn text(&self) -> &[u8] {
        &self.text
    }

    fn text_mut(&mut self) -> &mut Vec<u8> {
        &mut self.text
    }

    fn frame_mut(&mut self) -> Option<&mut Vec<u8>> {
        None
    }

    fn lent(&self) -> usize {
        self.text.len()
    }

    fn lend(&mut self, _: usize) {}

    fn pattern(place: usize) -> u8 {
        SheetCall::pattern(place)
    }

    fn filled(&self) -> Vec<u8> {
        let around = |count: usize| (0..count).map(Self::pattern);
        let text = self.text.iter().copied();
        around(Self::BEFORE)
            .chain(text)
            .chain(around(Self::BEYOND))
            .collect()
    }

    fn library(&self, text: &mut [u8]) -> ExplainAnswer {
        library::explain(text)
    }

    fn reference(&self, way: Way) -> Result<Option<Explanation>, Refusal> {
        explain(way, &self.text)
    }

    fn answer(explanation: &Option<Explanation>) -> ExplainAnswer {
        explanation.map_or(ExplainAnswer::PASSED, ExplainAnswer::from)
    }

    fn written(_: &Option<Explanation>) -> Vec<u8> {
        Vec::new()
    }

    /// That of the text, or that of the sheet which is explained.
    fn refusal(answer: ExplainAnswer) -> Refusal {
        let (number, place) = match answer.reason {
            0x00 => (answer.refusal, answer.place),
            0x01..=0x03 | 0x0e..=0x11 => (20, answer.step),
            0x04..=0x0b | 0x12 | 0x13 => (21, answer.step),
            0x0c | 0x0d => (22, answer.step),
            reason => panic!("there is no reason {reason:x}"),
        };
        Refusal { number, place }
    }

    fn reason(answer: ExplainAnswer) -> u64 {
        answer.reason
    }

    fn told(text: &[u8], expected: &[u8]) -> String {
        match text.iter().zip(expected).filter(|(x, y)| x != y).count() {
            0 => String::new(),
            changed => format!("{changed} bytes of the text or around it have changed\n"),
        }
    }
}

impl fmt::Display for ExplainCall {
    fn fmt(&self, f: &mut fmt::Formatter) -> fmt::Result {
        write_text(f, &self.text)
    }
}

pub(super) fn write_text(f: &mut fmt::Formatter, text: &[u8]) -> fmt::Result {
    let lines = text.escape_ascii().to_string().replace("\\n", "\n");
    writeln!(f, "text, {} bytes:\n{lines}", text.len())
}
