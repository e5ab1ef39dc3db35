//! Recipes that are turned down for chosen reasons: of one step's operands these facts of request
//! W-205 are true, and no other of its opcode.

use super::growing::{grow_sheet_around, Plan};
use super::{Draft, Line};
use crate::patterns::Random;
use crate::reference::recipe::explain::reasons;
use crate::reference::recipe::text::MOST_STEPS;
use crate::reference::recipe::{Kind, Operation, Range, Way};

/// The codes of facts that can be true at once of a step with this opcode.
#[derive(Clone, Copy, Debug, PartialEq, Eq, PartialOrd, Ord)]
pub struct Facts {
    pub opcode: u8,
    pub codes: &'static [u8],
    /// Whether they can be where A and B name the same step.
    pub of_one_step: bool,
}

const fn facts(opcode: u8, codes: &'static [u8]) -> Facts {
    Facts {
        opcode,
        codes,
        of_one_step: false,
    }
}

const fn of_one_step_too(opcode: u8, codes: &'static [u8]) -> Facts {
    Facts {
        opcode,
        codes,
        of_one_step: true,
    }
}

/// Every set of facts that can be true at once.
pub const FACTS: [Facts; 100] = [
    of_one_step_too(0x22, &[0x01]),
    of_one_step_too(0x22, &[0x02]),
    of_one_step_too(0x22, &[0x03]),
    of_one_step_too(0x22, &[0x01, 0x02]),
    of_one_step_too(0x22, &[0x01, 0x03]),
    of_one_step_too(0x22, &[0x02, 0x03]),
    of_one_step_too(0x22, &[0x01, 0x02, 0x03]),
    of_one_step_too(0x24, &[0x01]),
    of_one_step_too(0x24, &[0x02]),
    of_one_step_too(0x24, &[0x03]),
    of_one_step_too(0x24, &[0x01, 0x02]),
    of_one_step_too(0x24, &[0x01, 0x03]),
    of_one_step_too(0x24, &[0x02, 0x03]),
    of_one_step_too(0x24, &[0x01, 0x02, 0x03]),
    facts(0x18, &[0x04]),
    facts(0x18, &[0x05]),
    facts(0x18, &[0x04, 0x05]),
    of_one_step_too(0x30, &[0x06]),
    of_one_step_too(0x30, &[0x07]),
    of_one_step_too(0x30, &[0x06, 0x07]),
    // low - high is -(high - low), and fits wherever that does.
    facts(0x31, &[0x06]),
    of_one_step_too(0x31, &[0x07]),
    of_one_step_too(0x31, &[0x06, 0x07]),
    facts(0x23, &[0x08]),
    facts(0x23, &[0x09]),
    facts(0x23, &[0x0a]),
    facts(0x23, &[0x0b]),
    facts(0x23, &[0x08, 0x09]),
    // An infinite end doesn't overflow, but the other may.
    facts(0x23, &[0x08, 0x0b]),
    facts(0x23, &[0x09, 0x0a]),
    facts(0x23, &[0x0a, 0x0b]),
    facts(0x32, &[0x0c]),
    facts(0x32, &[0x0d]),
    facts(0x32, &[0x0c, 0x0d]),
    // An infinite end doesn't overflow, but the answer's other end may.
    facts(0x40, &[0x0e]),
    facts(0x40, &[0x0f]),
    facts(0x40, &[0x10]),
    facts(0x40, &[0x11]),
    of_one_step_too(0x40, &[0x12]),
    of_one_step_too(0x40, &[0x13]),
    facts(0x40, &[0x0e, 0x0f]),
    of_one_step_too(0x40, &[0x0e, 0x10]),
    facts(0x40, &[0x0e, 0x11]),
    facts(0x40, &[0x0e, 0x13]),
    facts(0x40, &[0x0f, 0x10]),
    of_one_step_too(0x40, &[0x0f, 0x11]),
    facts(0x40, &[0x0f, 0x12]),
    facts(0x40, &[0x10, 0x11]),
    facts(0x40, &[0x10, 0x13]),
    facts(0x40, &[0x11, 0x12]),
    of_one_step_too(0x40, &[0x12, 0x13]),
    facts(0x40, &[0x0e, 0x0f, 0x10]),
    facts(0x40, &[0x0e, 0x0f, 0x11]),
    facts(0x40, &[0x0e, 0x10, 0x11]),
    of_one_step_too(0x40, &[0x0e, 0x10, 0x13]),
    facts(0x40, &[0x0f, 0x10, 0x11]),
    of_one_step_too(0x40, &[0x0f, 0x11, 0x12]),
    of_one_step_too(0x40, &[0x0e, 0x0f, 0x10, 0x11]),
    // low - high is -(high - low): of one step both overflow, or neither.
    facts(0x41, &[0x0e]),
    facts(0x41, &[0x0f]),
    facts(0x41, &[0x10]),
    facts(0x41, &[0x11]),
    facts(0x41, &[0x12]),
    facts(0x41, &[0x13]),
    facts(0x41, &[0x0e, 0x0f]),
    of_one_step_too(0x41, &[0x0e, 0x10]),
    facts(0x41, &[0x0e, 0x11]),
    facts(0x41, &[0x0e, 0x13]),
    facts(0x41, &[0x0f, 0x10]),
    of_one_step_too(0x41, &[0x0f, 0x11]),
    facts(0x41, &[0x0f, 0x12]),
    facts(0x41, &[0x10, 0x11]),
    facts(0x41, &[0x10, 0x12]),
    facts(0x41, &[0x11, 0x13]),
    of_one_step_too(0x41, &[0x12, 0x13]),
    facts(0x41, &[0x0e, 0x0f, 0x10]),
    facts(0x41, &[0x0e, 0x0f, 0x11]),
    facts(0x41, &[0x0e, 0x10, 0x11]),
    facts(0x41, &[0x0e, 0x11, 0x13]),
    facts(0x41, &[0x0f, 0x10, 0x11]),
    facts(0x41, &[0x0f, 0x10, 0x12]),
    of_one_step_too(0x41, &[0x0e, 0x0f, 0x10, 0x11]),
    // The four products have every end among their operands.
    facts(0x42, &[0x0e]),
    facts(0x42, &[0x0f]),
    facts(0x42, &[0x10]),
    facts(0x42, &[0x11]),
    facts(0x42, &[0x12]),
    of_one_step_too(0x42, &[0x13]),
    facts(0x42, &[0x0e, 0x0f]),
    of_one_step_too(0x42, &[0x0e, 0x10]),
    facts(0x42, &[0x0e, 0x11]),
    facts(0x42, &[0x0f, 0x10]),
    of_one_step_too(0x42, &[0x0f, 0x11]),
    facts(0x42, &[0x10, 0x11]),
    of_one_step_too(0x42, &[0x12, 0x13]),
    facts(0x42, &[0x0e, 0x0f, 0x10]),
    facts(0x42, &[0x0e, 0x0f, 0x11]),
    facts(0x42, &[0x0e, 0x10, 0x11]),
    facts(0x42, &[0x0f, 0x10, 0x11]),
    of_one_step_too(0x42, &[0x0e, 0x0f, 0x10, 0x11]),
];

/// Where the refused step stands in its recipe.
#[derive(Clone, Copy, Debug, PartialEq, Eq)]
pub enum Place {
    /// Right after its operands, with which a recipe of 128 steps begins.
    First,
    /// Somewhere in a recipe of up to 60 steps.
    Some,
    /// Last of 128.
    Last,
}

pub const PLACES: [Place; 3] = [Place::First, Place::Some, Place::Last];

impl Random {
    /// Ranges for the operands of a step: of one step if `same`. One that isn't used is 0 to 0.
    pub fn operands(&mut self, operation: &Operation, same: bool) -> [Range; 2] {
        let computes = (0x40..=0x42).contains(&operation.opcode);
        let mut range = |kind| {
            let [low, high] = match self.below(4) {
                0 => self.declared_range(kind),
                1 | 2 if computes => {
                    let are_infinite = [(); 2].map(|_| self.below(3) == 0);
                    self.far_range(are_infinite)
                }
                _ => self.range(kind),
            };
            Range { low, high }
        };
        match operation.source.operands()[..] {
            [kind] => [range(kind), Range::of(0)],
            [kind, _] if same => [range(kind); 2],
            [a, b] => [range(a), range(b)],
            _ => panic!("{:x} takes no operand", operation.opcode),
        }
    }

    /// Ranges on which some of these facts are true: of a sum, a difference or a product those of
    /// infinite ends are, and no others of them.
    fn operands_for(&mut self, operation: &Operation, facts: &Facts, same: bool) -> [Range; 2] {
        if !(0x40..=0x42).contains(&operation.opcode) {
            return self.operands(operation, same);
        }
        let [a, b] = [[0x0e, 0x0f], [0x10, 0x11]].map(|codes| {
            let are_infinite = codes.map(|code| facts.codes.contains(&code));
            let [low, high] = self.far_range(are_infinite);
            Range { low, high }
        });
        [a, if same { a } else { b }]
    }

    /// A recipe with a step of which these facts are true and no other, and that step. Those before
    /// it are not refused. A and B name the same step if `same`.
    pub fn turned_down(&mut self, facts: &Facts, place: Place, same: bool) -> (Draft, usize) {
        let operation = Operation::of_opcode(facts.opcode).expect("an opcode");
        let ranges = loop {
            let [a, b] = self.operands_for(operation, facts, same);
            let codes = reasons(Way::Short, operation, a, b).map(|reason| reason.code);
            if codes.eq(facts.codes.iter().copied()) {
                break [a, b];
            }
        };
        let kinds = operation.source.operands();
        let operands = if same { 1 } else { kinds.len() };
        let (step, steps) = match place {
            Place::First => (operands, MOST_STEPS),
            Place::Some => {
                let step = operands + self.below(30) as usize;
                (step, step + 1 + self.below(30) as usize)
            }
            Place::Last => (MOST_STEPS - 1, MOST_STEPS),
        };
        let a = self.below(step as u64) as usize;
        let mut lines = vec![(a, self.line(kinds[0], ranges[0]))];
        let b = match kinds.len() {
            1 => 0,
            _ if same => a,
            _ => {
                let b = (a + 1 + self.below(step as u64 - 1) as usize) % step;
                lines.push((b, self.line(kinds[1], ranges[1])));
                b
            }
        };
        lines.push((step, Line::step(facts.opcode, a, b)));
        let inputs = (0..self.below(6)).map(|_| self.below(steps as u64) as usize);
        let plan = Plan {
            steps,
            inputs: inputs.collect(),
            chain: self.below(3) == 0,
            ordinary: false,
            refusing: vec![],
        };
        (grow_sheet_around(self, &plan, &lines), step)
    }

    /// An input of this range, or a constant where it is one word.
    fn line(&mut self, kind: Kind, range: Range) -> Line {
        match self.below(2) {
            0 if range.low == range.high => Line::constant(kind, range.low),
            _ => Line::input(kind, [range.low, range.high]),
        }
    }
}
