//! How often the two rules were held together, and what they differed in.

use super::difference::{of_explanation, of_run, of_sheet, Both, Fate, Part, Shown};
use super::example::Example;
use super::Calls;
use std::collections::BTreeMap;

/// Of what is wrong, so much is kept: one mistake in a rule shows in thousands of recipes.
const MOST_WRONG: usize = 5;

/// Runs or sheets that neither rule refused, and those that both did, by refusal.
#[derive(Debug, Default)]
pub struct Tally {
    pub worked: u64,
    pub refused: BTreeMap<u64, u64>,
}

#[derive(Debug, Default)]
pub struct Counts {
    pub sheets: Tally,
    pub runs: Tally,
    met: BTreeMap<(u8, Part, Option<Fate>), u64>,
    /// The shortest that were met, and of these the first by their digits.
    examples: BTreeMap<(u8, Part, Fate), Example>,
    /// What breaks W-202's "nothing else changes", if anything does.
    pub wrong: Vec<String>,
}

impl Counts {
    /// Holds each of these calls together by both rules.
    pub fn add(&mut self, calls: &Calls) {
        for call in &calls.sheets {
            self.add_call(of_sheet(call), &call.text, &[], |counts| &mut counts.sheets);
        }
        for call in &calls.runs {
            self.add_call(of_run(call), &call.text, &call.frame, |counts| {
                &mut counts.runs
            });
        }
        let explanations = calls.explanations.iter();
        let wrong = explanations.filter_map(|call| of_explanation(call).err());
        self.add_wrong(wrong);
    }

    fn add_call(
        &mut self,
        both: Result<Both, String>,
        text: &[u8],
        frame: &[u8],
        tally: fn(&mut Counts) -> &mut Tally,
    ) {
        match both {
            Err(wrong) => self.add_wrong([wrong]),
            Ok(Both::Refused(refusal)) => {
                let refused = &mut tally(self).refused;
                *refused.entry(refusal.number).or_default() += 1;
            }
            Ok(Both::Worked(shown)) => {
                tally(self).worked += 1;
                for shown in shown {
                    self.add_shown(&shown, text, frame);
                }
            }
        }
    }

    fn add_shown(&mut self, shown: &Shown, text: &[u8], frame: &[u8]) {
        let (opcode, part) = (shown.opcode, shown.part);
        *self.met.entry((opcode, part, shown.fate)).or_default() += 1;
        if let Some(fate @ (Fate::ChosenHere | Fate::HandedOn)) = shown.fate {
            let example = || Example::up_to(shown, text, frame);
            self.add_example((opcode, part, fate), shown.step, example);
        }
    }

    /// Keeps an example of a step where none of a smaller one is known.
    fn add_example(
        &mut self,
        key: (u8, Part, Fate),
        step: usize,
        example: impl FnOnce() -> Example,
    ) {
        let known = self.examples.get(&key);
        if known.is_none_or(|known| step <= known.step()) {
            let example = example();
            let is_less = |known: &Example| (step, &example) < (known.step(), known);
            if known.is_none_or(is_less) {
                self.examples.insert(key, example);
            }
        }
    }

    fn add_wrong(&mut self, wrong: impl IntoIterator<Item = String>) {
        self.wrong.extend(wrong);
        self.wrong.truncate(MOST_WRONG);
    }

    pub fn join(&mut self, other: Counts) {
        for (tally, others) in [
            (&mut self.sheets, other.sheets),
            (&mut self.runs, other.runs),
        ] {
            tally.worked += others.worked;
            for (refusal, count) in others.refused {
                *tally.refused.entry(refusal).or_default() += count;
            }
        }
        for (key, count) in other.met {
            *self.met.entry(key).or_default() += count;
        }
        for (key, example) in other.examples {
            self.add_example(key, example.step(), || example);
        }
        self.add_wrong(other.wrong);
    }

    /// How often this became of a zero's sign, in this part of a step with this opcode.
    pub fn met(&self, opcode: u8, part: Part, fate: Fate) -> u64 {
        let met = self.met.get(&(opcode, part, Some(fate)));
        met.copied().unwrap_or(0)
    }

    /// How often this part of a step with this opcode was held together.
    pub fn compared(&self, opcode: u8, part: Part) -> u64 {
        let is_asked = |&(&(other, of, _), _): &(&(u8, Part, _), _)| (other, of) == (opcode, part);
        let asked = self.met.iter().filter(is_asked);
        asked.map(|(_, count)| count).sum()
    }

    /// A recipe in which this became of a zero's sign, where it was chosen or handed on.
    pub fn example(&self, opcode: u8, part: Part, fate: Fate) -> Option<&Example> {
        self.examples.get(&(opcode, part, fate))
    }

    #[cfg(test)]
    pub fn examples(&self) -> impl Iterator<Item = &Example> {
        self.examples.values()
    }
}
