//! What is made of a call beside what the reference expects: the answer, and every unit of the
//! lent memory and around it.

use super::Call;
use crate::reference::recipe::Way;

/// An answer, and what then stands in the lent memory, before it and after it.
#[derive(Debug, PartialEq)]
pub struct Outcome<C: Call> {
    pub answer: C::Answer,
    pub memory: Vec<C::Unit>,
}

impl<C: Call> Outcome<C> {
    /// Of `make`, which is given the lent memory.
    pub fn made(call: &C, make: impl FnOnce(&mut [C::Unit]) -> C::Answer) -> Outcome<C> {
        let mut memory = call.filled();
        let answer = make(&mut memory[C::BEFORE..][..call.lent()]);
        Outcome { answer, memory }
    }

    pub fn library(call: &C) -> Outcome<C> {
        Outcome::made(call, |memory| call.library(memory))
    }

    /// By the reference. A call that is answered writes what was worked out and nothing after it; a
    /// refused one writes nothing.
    pub fn expected(way: Way, call: &C) -> Outcome<C> {
        Outcome::made(call, |memory| match call.reference(way) {
            Err(refusal) => C::Answer::from(refusal),
            Ok(worked) => {
                let written = C::written(&worked);
                memory[..written.len()].copy_from_slice(&written);
                C::answer(&worked)
            }
        })
    }

    /// The number of the refusal, 0 where there is none.
    pub fn refusal(&self) -> u64 {
        C::refusal(self.answer).number
    }

    /// What differs, if anything does.
    pub fn difference(&self, expected: &Outcome<C>, call: &C) -> Option<String> {
        if self == expected {
            return None;
        }
        let memory = C::told(&self.memory, &expected.memory);
        let (answer, expected) = (self.answer, expected.answer);
        Some(format!("{answer}\nexpected {expected}\n{memory}{call}"))
    }
}

/// The library's outcome; stops where the reference's is another.
#[track_caller]
pub fn check<C: Call>(way: Way, call: &C) -> Outcome<C> {
    let outcome = Outcome::library(call);
    if let Some(difference) = outcome.difference(&Outcome::expected(way, call), call) {
        panic!("{difference}");
    }
    outcome
}

#[cfg(test)]
mod tests {
    use super::*;
    use crate::recipes::{ExplainCall, LinesCall, RunCall, SheetCall};

    /// A comparison that found nothing would let every library pass.
    fn every_difference_is_told<C: Call>(call: &C, changes: &[fn(&mut Outcome<C>)]) {
        let outcome = || Outcome::expected(Way::Exact, call);
        assert_eq!(outcome().difference(&outcome(), call), None);
        for change in changes {
            let mut changed = outcome();
            change(&mut changed);
            assert!(changed.difference(&outcome(), call).is_some());
        }
    }

    #[test]
    fn every_difference_of_a_run_is_told() {
        let call = RunCall {
            text: vec![],
            frame: vec![],
            lent: 2,
        };
        every_difference_is_told(
            &call,
            &[
                |outcome| outcome.answer.refusal += 1,
                |outcome| outcome.answer.place += 1,
                |outcome| outcome.answer.kind += 1,
                |outcome| outcome.answer.word += 1,
                |outcome| outcome.memory[0] += 1,
                |outcome| outcome.memory[4] += 1,
            ],
        );
    }

    #[test]
    fn every_difference_of_frame_lines_is_told() {
        const BEFORE: usize = LinesCall::BEFORE;
        let call = LinesCall {
            text: b"040000000000000000002a0000000000000000\n".to_vec(),
            lines: b"\n0\n".to_vec(),
            lent: 40,
        };
        every_difference_is_told(
            &call,
            &[
                |outcome| outcome.answer.refusal += 1,
                |outcome| outcome.answer.place += 1,
                |outcome| outcome.answer.read += 1,
                |outcome| outcome.answer.written += 1,
                |outcome| outcome.memory[BEFORE - 1] += 1,
                |outcome| outcome.memory[BEFORE] += 1,
                |outcome| outcome.memory[BEFORE + 25] += 1,
                |outcome| outcome.memory[BEFORE + 26] += 1,
                |outcome| outcome.memory[BEFORE + 40] += 1,
            ],
        );
    }

    #[test]
    fn every_difference_of_a_sheet_is_told() {
        const BEFORE: usize = SheetCall::BEFORE;
        let call = SheetCall {
            text: b"040000000000000000002a0000000000000000\n".to_vec(),
            lent: 41,
        };
        every_difference_is_told(
            &call,
            &[
                |outcome| outcome.answer.refusal += 1,
                |outcome| outcome.answer.place += 1,
                |outcome| outcome.answer.steps += 1,
                |outcome| outcome.memory[BEFORE - 1] += 1,
                |outcome| outcome.memory[BEFORE] += 1,
                // The mark, the line feed, the rest of the memory, and what is behind it.
                |outcome| outcome.memory[BEFORE + 5] ^= 1,
                |outcome| outcome.memory[BEFORE + 38] += 1,
                |outcome| outcome.memory[BEFORE + 39] += 1,
                |outcome| outcome.memory[BEFORE + 41] += 1,
            ],
        );
    }

    #[test]
    fn every_difference_of_an_explanation_is_told() {
        const BEFORE: usize = ExplainCall::BEFORE;
        let call = ExplainCall {
            text: b"040000000000000000002a0000000000000000\n".to_vec(),
        };
        every_difference_is_told(
            &call,
            &[
                |outcome| outcome.answer.refusal += 1,
                |outcome| outcome.answer.place += 1,
                |outcome| outcome.answer.step += 1,
                |outcome| outcome.answer.operand += 1,
                |outcome| outcome.answer.reason += 1,
                |outcome| outcome.memory[BEFORE - 1] += 1,
                |outcome| outcome.memory[BEFORE] += 1,
                |outcome| outcome.memory[BEFORE + 38] += 1,
                |outcome| outcome.memory[BEFORE + 39] += 1,
            ],
        );
    }
}
