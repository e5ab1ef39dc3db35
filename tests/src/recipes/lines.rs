//! A run of frame lines as a call, and the lines and lengths of memory that it is tried on.

use super::calls::write_text;
use super::faults::{damaged, LINES_REFUSALS};
use super::growing::{grow, Grow};
use super::{frame, Call, Draft, RunCall, SheetCall};
use crate::library::{self, LinesAnswer};
use crate::patterns::Random;
use crate::reference::recipe::lines::LONGEST_ANSWER;
use crate::reference::recipe::{run_lines, text, Answers, Refusal, Step, Way};
use std::fmt;

/// What a run of frame lines is called with.
#[derive(Clone, Debug, PartialEq, Eq)]
pub struct LinesCall {
    pub text: Vec<u8>,
    /// Frames, each with its line feed.
    pub lines: Vec<u8>,
    /// Bytes of memory.
    pub lent: usize,
}

/// The lent memory starts at an odd address. A refused frame is an answer; the refusals of the call
/// are those of the text and of the memory.
impl Call for LinesCall {
    type Answer = LinesAnswer;
    type Unit = u8;
    type Worked = Answers;

    const REFUSALS: &'static [u64] = &LINES_REFUSALS;
    const GROW: Grow = grow;
    const BEFORE: usize = 5;
    const BEYOND: usize = 40;
    const MOST_SPARE: u64 = 2 * LONGEST_ANSWER as u64;

    /// One line, with memory for just its answer.
    fn of(draft: &Draft) -> LinesCall {
        let RunCall { text, frame, .. } = draft.run_call();
        LinesCall {
            text,
            lines: [frame, b"\n".to_vec()].concat(),
            lent: LONGEST_ANSWER,
        }
    }

    fn text(&self) -> &[u8] {
        &self.text
    }

    fn text_mut(&mut self) -> &mut Vec<u8> {
        &mut self.text
    }

    fn frame_mut(&mut self) -> Option<&mut Vec<u8>> {
        None
    }

    fn lent(&self) -> usize {
        self.lent
    }

    fn lend(&mut self, lent: usize) {
        self.lent = lent;
    }

    fn pattern(place: usize) -> u8 {
        SheetCall::pattern(place)
    }

    fn library(&self, memory: &mut [u8]) -> LinesAnswer {
        library::run_lines(&self.text, &self.lines, memory)
    }

    fn reference(&self, way: Way) -> Result<Answers, Refusal> {
        run_lines(way, &self.text, &self.lines, self.lent)
    }

    fn answer(answers: &Answers) -> LinesAnswer {
        LinesAnswer::from(answers)
    }

    fn written(answers: &Answers) -> Vec<u8> {
        answers.bytes.clone()
    }

    fn refusal(answer: LinesAnswer) -> Refusal {
        let (number, place) = (answer.refusal, answer.place);
        Refusal { number, place }
    }

    fn told(memory: &[u8], expected: &[u8]) -> String {
        SheetCall::told(memory, expected)
    }
}

impl fmt::Display for LinesCall {
    fn fmt(&self, f: &mut fmt::Formatter) -> fmt::Result {
        write_text(f, &self.text)?;
        let lines = self.lines.escape_ascii().to_string();
        let lines = lines.replace("\\n", "\n");
        writeln!(f, "lines, {} bytes:\n{lines}", self.lines.len())?;
        write!(f, "{} bytes lent", self.lent)
    }
}

/// A recipe, and the frame that it came with.
pub struct Recipe {
    pub text: Vec<u8>,
    pub frame: Vec<u8>,
    /// Empty where the text is refused.
    pub steps: Vec<Step>,
}

impl Random {
    /// A recipe with these faults, of its text or of a step over its frame.
    pub fn recipe(&mut self, faults: &[u64]) -> Recipe {
        let (RunCall { text, frame, .. }, _) = damaged(self, faults);
        let steps = text::steps(Way::Short, &text).unwrap_or_default();
        Recipe { text, frame, steps }
    }

    /// A word for each input of a recipe, in its declared range.
    pub fn input_words(&mut self, steps: &[Step]) -> Vec<u64> {
        let inputs = steps.iter().filter(|step| step.operation.is_input());
        inputs
            .map(|step| self.inside(step.operation.kind, [step.p, step.q]))
            .collect()
    }

    /// Puts one of these words outside its range, where there is an input and it has an outside.
    pub fn put_one_outside(&mut self, steps: &[Step], words: &mut [u64]) {
        if words.is_empty() {
            return;
        }
        let input = self.below(words.len() as u64) as usize;
        let mut inputs = steps.iter().filter(|step| step.operation.is_input());
        let step = inputs.nth(input).expect("there is a word for each input");
        if let Some(word) = self.outside(step.operation.kind, [step.p, step.q]) {
            words[input] = word;
        }
    }

    /// So many lines for a recipe, a few more where noise has line feeds in it. One time in four the
    /// last lacks its line feed.
    pub fn lines(&mut self, recipe: &Recipe, count: u64) -> Vec<u8> {
        let mut lines = Vec::new();
        for _ in 0..count {
            lines.extend(self.frame_line(recipe));
            lines.push(b'\n');
        }
        if self.below(4) == 0 {
            lines.pop();
        }
        lines
    }

    /// A frame in the declared ranges in half of the cases, and otherwise the recipe's own, or one
    /// that something is wrong with.
    fn frame_line(&mut self, recipe: &Recipe) -> Vec<u8> {
        let mut words = self.input_words(&recipe.steps);
        let sort = self.below(26);
        if let 0 | 1 = sort {
            self.put_one_outside(&recipe.steps, &mut words);
        }
        let mut line = frame(&words);
        match sort {
            2 | 3 if !line.is_empty() => {
                let place = self.below(line.len() as u64) as usize;
                line[place] = self.one_of(b"gAF\r \0\xff/:`\x8a");
            }
            4 => line.push(self.one_of(b"0f\r \n\xff")),
            5 => drop(line.pop()),
            6 => line.extend(b"0000000000000000"),
            7 => line.truncate(line.len().saturating_sub(16)),
            8 => line.push(b'\r'),
            9 => line.resize(self.one_of(&[16, 255, 256, 257, 258, 272, 512]), b'0'),
            // Refused for its length even where no byte is a digit.
            10 => line.resize(self.one_of(&[255, 256, 257, 258, 300]), b'z'),
            11 if self.below(8) == 0 => line.resize(257 + self.below(9_000) as usize, b'0'),
            11 | 12 => line.clear(),
            13 => {
                let length = self.below(40);
                line = (0..length).map(|_| self.word() as u8).collect();
            }
            14..=17 => line = recipe.frame.clone(),
            _ => {}
        }
        line
    }

    /// Bytes of memory for so many lines, which may be too few: the least that there can be and
    /// beside it, as many as some long answers take, some long and some short ones, any, or plenty.
    pub fn room(&mut self, count: u64) -> usize {
        const LONG: u64 = LONGEST_ANSWER as u64;
        const SHORT: u64 = 7;
        let room = match self.below(10) {
            0 => self.below(LONG),
            1 => LONG - 1 + self.below(3),
            2 => LONG * (1 + self.below(count + 1)),
            3 => LONG * (1 + self.below(count + 1)) - 1,
            4 | 5 => LONG + LONG * self.below(count + 1) + SHORT * self.below(count + 1),
            6..=8 => self.below(LONG * (count + 2)),
            _ => LONG * (count + 40) + self.below(LONG),
        };
        room as usize
    }
}
