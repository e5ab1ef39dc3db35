//! The run: frame to values.

use super::text::{hexadecimal, is_nan, parse, Step, MOST_STEPS};
use super::Kind::{self, Double, Whole};
use super::Refused;
use crate::answer::Answer;
use crate::library::RunAnswer;
use crate::reference::short::{fmod, ldexp, order, parts, remainder, rounding, whole};
use crate::reference::BINARY64;

/// `ew_run` again.
pub fn run(text: &[u8], frame: &[u8], words: &mut [u64]) -> RunAnswer {
    let (refusal, place, kind, word) = match completed(text, frame, words) {
        Ok((kind, word)) => (0, 0, kind as u64, word),
        Err((number, place)) => (number, place as u64, 0, 0),
    };
    RunAnswer {
        refusal,
        place,
        kind,
        word,
    }
}

/// A recipe that was read, for many frames.
pub struct Recipe {
    steps: Vec<Step>,
    inputs: Vec<usize>,
}

impl Recipe {
    pub fn read(text: &[u8]) -> Result<Recipe, Refused> {
        let steps = parse(text)?;
        let inputs = (0..steps.len())
            .filter(|&place| steps[place].opcode <= 0x02)
            .collect();
        Ok(Recipe { steps, inputs })
    }

    /// The last step's kind and word.
    pub fn run(&self, frame: &[u8]) -> Result<(Kind, u64), Refused> {
        let last = self.steps.len() - 1;
        Ok((self.steps[last].kind, self.values(frame)?[last]))
    }

    fn values(&self, frame: &[u8]) -> Result<[u64; MOST_STEPS], Refused> {
        let mut values = [0; MOST_STEPS];
        self.read_frame(frame, &mut values)?;
        evaluate(&self.steps, &mut values)?;
        Ok(values)
    }

    /// Puts each input's word at its step.
    fn read_frame(&self, frame: &[u8], values: &mut [u64; MOST_STEPS]) -> Result<(), Refused> {
        if frame.len() != 16 * self.inputs.len() {
            return Err((30, 0));
        }
        for (&place, digits) in self.inputs.iter().zip(frame.chunks_exact(16)) {
            values[place] = hexadecimal(digits).ok_or((31, 0))?;
        }
        for &place in &self.inputs {
            let (step, word) = (&self.steps[place], values[place]);
            let inside = match step.kind {
                Double => {
                    let rank = |word| BINARY64.rank(word);
                    !is_nan(word) && (rank(step.p)..=rank(step.q)).contains(&rank(word))
                }
                Whole => (step.p as i64..=step.q as i64).contains(&(word as i64)),
            };
            if !inside {
                return Err((32, place));
            }
        }
        Ok(())
    }
}

fn completed(text: &[u8], frame: &[u8], words: &mut [u64]) -> Result<(Kind, u64), Refused> {
    let recipe = Recipe::read(text)?;
    let steps = recipe.steps.len();
    if words.len() < steps {
        return Err((40, 0));
    }
    let values = recipe.values(frame)?;
    words[..steps].copy_from_slice(&values[..steps]);
    Ok((recipe.steps[steps - 1].kind, values[steps - 1]))
}

/// The function's word, or the number of the step's refusal.
fn or_refused(answer: Answer, number: u64) -> Result<u64, u64> {
    match answer.refusal {
        0 => Ok(answer.words[0]),
        _ => Err(number),
    }
}

/// What the machine's own operation makes of two finite doubles.
fn computed(a: u64, b: u64, operation: fn(f64, f64) -> f64) -> Result<u64, u64> {
    let (a, b) = (f64::from_bits(a), f64::from_bits(b));
    if a.is_infinite() || b.is_infinite() {
        return Err(20);
    }
    let result = operation(a, b);
    if result.is_infinite() {
        return Err(21);
    }
    Ok(result.to_bits())
}

/// Works the steps in order; the inputs' values stand at their places.
fn evaluate(steps: &[Step], values: &mut [u64; MOST_STEPS]) -> Result<(), Refused> {
    for (place, step) in steps.iter().enumerate() {
        let a = || values[step.a];
        let b = || values[step.b];
        let value = match step.opcode {
            0x01 | 0x02 => Ok(values[place]),
            0x03 | 0x04 => Ok(step.p),
            0x10 => Ok(rounding::floor(&BINARY64, a())),
            0x11 => Ok(rounding::ceil(&BINARY64, a())),
            0x12 => Ok(rounding::trunc(&BINARY64, a())),
            0x13 => Ok(rounding::round(&BINARY64, a())),
            0x14 => Ok(rounding::nearbyint(&BINARY64, a())),
            0x15 => Ok(parts::modf(&BINARY64, a()).words[1]),
            0x16 => Ok(BINARY64.fabs(a())),
            0x17 => Ok(BINARY64.negate(a())),
            0x18 => or_refused(rounding::lround(&BINARY64, a()), 21),
            0x20 => Ok(order::fmin(&BINARY64, a(), b())),
            0x21 => Ok(order::fmax(&BINARY64, a(), b())),
            0x22 => or_refused(fmod::fmod(&BINARY64, a(), b()), 20),
            0x23 => or_refused(ldexp::ldexp(&BINARY64, a(), b() as i64), 21),
            0x24 => or_refused(remainder::remainder(&BINARY64, a(), b()), 20),
            0x30 => (a() as i64)
                .checked_add(b() as i64)
                .map(|n| n as u64)
                .ok_or(21),
            0x31 => (a() as i64)
                .checked_sub(b() as i64)
                .map(|n| n as u64)
                .ok_or(21),
            0x32 => or_refused(whole::to_double(&BINARY64, a() as i64), 22),
            0x40 => computed(a(), b(), |a, b| a + b),
            0x41 => computed(a(), b(), |a, b| a - b),
            _ => computed(a(), b(), |a, b| a * b),
        };
        values[place] = value.map_err(|number| (number, place))?;
    }
    Ok(())
}

#[cfg(test)]
mod tests {
    use super::*;
    use crate::patterns::Random;
    use crate::recipes::comparison::Outcome;
    use crate::recipes::faults::{damaged, REFUSALS};
    use crate::recipes::RunCall;
    use crate::reference::recipe::Way;

    fn check(call: &RunCall) {
        let outcome = Outcome::made(call, |words| run(&call.text, &call.frame, words));
        assert_eq!(outcome, Outcome::expected(Way::Short, call), "{call}");
    }

    /// A race against wrong answers would say nothing.
    #[test]
    fn gives_the_reference_s_answers() {
        let mut random = Random::new(31);
        for _ in 0..20 {
            for first in REFUSALS {
                for second in REFUSALS {
                    for faults in [&[][..], &[first], &[first, second]] {
                        check(&damaged(&mut random, faults).0);
                    }
                }
                check(&random.meeting().run_call());
            }
        }
    }
}
