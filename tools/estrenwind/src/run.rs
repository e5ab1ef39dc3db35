//! `estrenwind run`: an answer for each frame.

use crate::decimal::{self, FrameWriter};
use crate::failure::{Failure, Status};
use crate::frames::{count_lines, length_of_lines, Frames};
use crate::output::Output;
use crate::part::{Ending, Heading};
use crate::progress::{say, Progress, Reached};
use crate::recipe::Recipe;
use crate::shard::{Blocks, Shard};
use crate::tally::Tally;
use crate::trace::trace;
use estrenwind::{read_answer, run_lines, MOST_FRAME};
use std::path::PathBuf;

/// Bytes of answers that are written at once, at most.
const ANSWERS: usize = 64 << 10;

/// Decimal lines that are made frames at once: each is of 273 bytes at most, and all together less than 64 KiB.
const DECIMAL_LINES: u64 = 200;

/// What is said of an output that a failure cut off.
pub const INCOMPLETE: &str = "answers are incomplete";

/// What the command line says of a run.
pub struct RunOptions {
    /// Standard input where there is none, or `-`.
    pub frames: Option<PathBuf>,
    /// Frames and answers in decimal.
    pub decimal: bool,
    /// The number of a frame, from 1, whose steps are shown; no other is run.
    pub trace: Option<u64>,
    pub shard: Option<Shard>,
    /// Standard output where there is none.
    pub output: Option<PathBuf>,
    pub quiet: bool,
}

impl RunOptions {
    /// The frames, opened.
    pub fn open_frames(&self) -> Result<Frames, Failure> {
        let longest = if self.decimal {
            decimal::LONGEST_LINE
        } else {
            MOST_FRAME
        };
        Frames::open(self.frames.as_deref(), longest)
    }

    /// The output, opened.
    pub fn open_output(&self) -> Result<Output, Failure> {
        Output::open_for(INCOMPLETE, self.output.as_deref())
    }
}

/// Answers all frames, or those of a shard, and says how many on standard error; or traces one.
pub fn run(recipe: &Recipe, options: &RunOptions) -> Result<Status, Failure> {
    if let Some(number) = options.trace {
        return trace(recipe, options, number);
    }
    let mut frames = options.open_frames()?;
    let mut run = Run::new(recipe, options)?;
    if let Some(shard) = options.shard {
        let heading = Heading::new(shard, &recipe.text, options.decimal);
        run.output.write(heading.line().as_bytes())?;
    }
    let mut progress = Progress::start(options.quiet);
    let mut blocks = Blocks::new(options.shard);
    loop {
        let mut lines = match frames.next_lines() {
            Ok(Some(lines)) => lines,
            Ok(None) => break,
            Err(error) => return Err(run.output.failure(frames.source().cannot_read(error))),
        };
        while !lines.is_empty() {
            run.answer(blocks.take(&mut lines))?;
        }
        let source = frames.source();
        progress.show(Reached {
            frames: run.tally.frames,
            read: source.read,
            size: source.size,
        });
    }
    drop(progress);
    if let Some(shard) = options.shard {
        let ending = Ending {
            shard,
            frames: blocks.lines(),
            tally: run.tally.clone(),
        };
        run.output.write(ending.line().as_bytes())?;
    }
    run.finish()
}

/// A run under way.
struct Run<'a> {
    recipe: &'a Recipe,
    /// None where frames and answers are hexadecimal.
    decimal: Option<FrameWriter>,
    output: Output,
    tally: Tally,
    /// Room for the answers to some lines.
    answers: Vec<u8>,
}

impl<'a> Run<'a> {
    fn new(recipe: &'a Recipe, options: &RunOptions) -> Result<Run<'a>, Failure> {
        Ok(Run {
            recipe,
            decimal: options.decimal.then(|| FrameWriter::new(recipe)),
            output: options.open_output()?,
            tally: Tally::new(),
            answers: vec![0; ANSWERS],
        })
    }

    /// Answers lines of this run's own.
    fn answer(&mut self, lines: &[u8]) -> Result<(), Failure> {
        self.tally.frames += count_lines(lines);
        if self.decimal.is_none() {
            return self.answer_frames(lines);
        }
        let mut rest = lines;
        while !rest.is_empty() {
            let (some, after) = rest.split_at(length_of_lines(rest, DECIMAL_LINES));
            let frames = self
                .decimal
                .as_ref()
                .map_or(Vec::new(), |writer| writer.frames(some));
            self.answer_frames(&frames)?;
            rest = after;
        }
        Ok(())
    }

    /// Has the library answer lines of hexadecimal frames, as many at once as there is room for their answers.
    fn answer_frames(&mut self, lines: &[u8]) -> Result<(), Failure> {
        let mut rest = lines;
        while !rest.is_empty() {
            let done = run_lines(&self.recipe.text, rest, &mut self.answers);
            let done = done.map_err(|refused| {
                Failure::Refused(format!("{}: {refused}\n", self.recipe.file))
            })?;
            if done.read == 0 {
                // There is a line and room for its answer: the library never does this. The counts will differ.
                break;
            }
            self.write_answers(done.written)?;
            rest = &rest[done.read..];
        }
        Ok(())
    }

    fn write_answers(&mut self, count: usize) -> Result<(), Failure> {
        let answers = &self.answers[..count];
        match &self.decimal {
            None => self.output.write(answers)?,
            Some(_) => write_decimal(&mut self.output, self.recipe, answers)?,
        }
        self.tally.count(answers);
        Ok(())
    }

    fn finish(self) -> Result<Status, Failure> {
        if let Some(difference) = self.tally.difference() {
            return Err(Failure::Files(format!("{INCOMPLETE}: {difference}")));
        }
        self.output.finish()?;
        say(&self.tally.line());
        Ok(self.tally.status())
    }
}

fn write_decimal(output: &mut Output, recipe: &Recipe, answers: &[u8]) -> Result<(), Failure> {
    let mut text = String::new();
    for line in answers.split_inclusive(|&byte| byte == b'\n') {
        let answer = line.strip_suffix(b"\n").and_then(read_answer);
        let answer = answer
            .ok_or_else(|| output.failure("the library wrote what is no answer".to_owned()))?;
        text.push_str(&decimal::answer_text(recipe, answer));
        text.push('\n');
        // Names can be long, and then so are refusals.
        if text.len() > ANSWERS {
            output.write(text.as_bytes())?;
            text.clear();
        }
    }
    output.write(text.as_bytes())
}
