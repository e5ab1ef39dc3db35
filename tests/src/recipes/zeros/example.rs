//! A recipe in which a zero's sign differs between the rules.

use super::difference::{Fate, Part, Shown};
use super::table::name;
use crate::recipes::{Draft, Line};
use crate::reference::recipe::text::{self, LINE};
use crate::reference::recipe::{frame, Kind, Source, Way};
use std::fmt;

/// A recipe up to the step at which the rules differ.
#[derive(Debug, PartialEq, Eq, PartialOrd, Ord)]
pub struct Example {
    text: Vec<u8>,
    /// Empty for a sheet.
    frame: Vec<u8>,
    shown: Shown,
}

impl Example {
    pub fn up_to(shown: &Shown, text: &[u8], frame: &[u8]) -> Example {
        Example {
            text: text[..LINE * (shown.step + 1)].to_vec(),
            frame: frame.to_vec(),
            shown: *shown,
        }
    }

    pub fn step(&self) -> usize {
        self.shown.step
    }

    /// What the step stands on, and the step itself last, as a recipe of its own: it shows the same.
    fn recipe(&self) -> Draft {
        let steps = text::steps(Way::Short, &self.text).expect("it was worked");
        let mut is_under = vec![false; steps.len()];
        is_under[self.step()] = true;
        for place in (0..steps.len()).rev() {
            let step = &steps[place];
            if is_under[place] && step.operation.uses_a() {
                is_under[step.a] = true;
            }
            if is_under[place] && step.operation.uses_b() {
                is_under[step.b] = true;
            }
        }
        let mut digits = self.frame.chunks(frame::DIGITS);
        let mut places = vec![0; steps.len()];
        let mut draft = Draft::default();
        for (place, step) in steps.iter().enumerate() {
            let word = step.operation.is_input().then(|| digits.next()).flatten();
            if !is_under[place] {
                continue;
            }
            let word = word.map(|digits| std::str::from_utf8(digits).expect("digits"));
            let word = word.map(|digits| u64::from_str_radix(digits, 16).expect("digits"));
            draft.words.extend(word);
            places[place] = draft.lines.len();
            draft.lines.push(Line {
                p: step.p,
                q: step.q,
                ..Line::step(step.operation.opcode, places[step.a], places[step.b])
            });
        }
        draft
    }
}

impl fmt::Display for Example {
    fn fmt(&self, f: &mut fmt::Formatter) -> fmt::Result {
        let part = match self.shown.part {
            Part::Word => "the word",
            Part::Low => "the low end",
            Part::High => "the high end",
        };
        let fate = match self.shown.fate {
            Some(Fate::ChosenHere) => "chosen here",
            Some(Fate::HandedOn) => "handed on",
            Some(Fate::Ended) | None => "no difference",
        };
        let draft = self.recipe();
        let (name, step) = (name(self.shown.opcode), draft.lines.len() - 1);
        writeln!(f, "{part} of {name} at step {step:02x}, {fate}")?;
        let text = draft.run_call().text;
        for (digits, line) in text.chunks(LINE).zip(&draft.lines) {
            writeln!(f, "  {}  {}", digits[..LINE - 1].escape_ascii(), told(line))?;
        }
        for (place, &word) in draft.inputs().into_iter().zip(&draft.words) {
            let kind = draft.lines[place].kind().expect("an opcode");
            writeln!(f, "  input {word:016x}  {}", decimal(kind, word))?;
        }
        for (rule, word) in ["document 01", "W-202"].into_iter().zip(self.shown.words) {
            writeln!(
                f,
                "  {rule:11} {word:016x}  {}",
                decimal(Kind::Double, word)
            )?;
        }
        Ok(())
    }
}

/// A line in words.
fn told(line: &Line) -> String {
    let operation = line.operation().expect("an opcode");
    let name = name(line.opcode);
    let decimal = |word| decimal(operation.kind, word);
    match operation.source {
        Source::Input => format!("{name}, {} to {}", decimal(line.p), decimal(line.q)),
        Source::Constant => format!("{name} {}", decimal(line.p)),
        Source::One { .. } => format!("{name} of step {:02x}", line.a),
        Source::Two { .. } => format!("{name} of steps {:02x} and {:02x}", line.a, line.b),
    }
}

fn decimal(kind: Kind, word: u64) -> String {
    match kind {
        Kind::Double => format!("{:?}", f64::from_bits(word)),
        Kind::Whole => format!("{}", word as i64),
    }
}

#[cfg(test)]
mod tests {
    use super::*;
    use crate::patterns::Random;
    use crate::recipes::zeros::difference::{of_run, of_sheet, Both};
    use crate::recipes::zeros::{Calls, Counts};

    /// What an example prints is worked again, and shows at its last step what it says.
    #[test]
    fn examples_show_what_they_say() {
        let mut counts = Counts::default();
        for seed in 0..100 {
            counts.add(&Calls::as_elsewhere(&mut Random::new(seed)));
            counts.add(&Calls::of_meeting_zeros(&mut Random::new(seed)));
        }
        assert!(counts.examples().count() > 20);
        for example in counts.examples() {
            let draft = example.recipe();
            let both = match example.shown.part {
                Part::Word => of_run(&draft.run_call()),
                Part::Low | Part::High => of_sheet(&draft.sheet_call()),
            };
            let Ok(Both::Worked(shown)) = both else {
                panic!("{both:?}\n{example}");
            };
            let expected = Shown {
                step: draft.lines.len() - 1,
                ..example.shown
            };
            assert!(shown.contains(&expected), "{example}");
        }
    }
}
