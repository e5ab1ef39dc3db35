//! Recipes in which zeros of both signs meet, and frames with zeros.

use crate::patterns::Random;
use crate::recipes::{Draft, Line};
use crate::reference::recipe::{Kind, Operation, Range, Way, OPERATIONS};
use crate::reference::BINARY64;

/// The step that a recipe's remainders are mostly by: a number other than zero.
const DIVISOR: usize = 3;

impl Random {
    /// +0 or -0.
    fn zero(&mut self) -> u64 {
        self.word() & BINARY64.sign_bit()
    }

    /// A range of one zero, or from or to one, or on both sides.
    fn range_at_zero(&mut self) -> [u64; 2] {
        let [below, above] = [-1.5f64, 2.5].map(f64::to_bits);
        match self.below(8) {
            0..=2 => [self.zero(), self.zero()],
            3 | 4 => [below, self.zero()],
            5 | 6 => [self.zero(), above],
            _ => [below, above],
        }
    }

    /// A frame's words for the inputs among these lines: half of those that may be a zero are one,
    /// of either sign.
    pub(super) fn words_with_zeros(&mut self, lines: &[Line]) -> Vec<u64> {
        let inputs = lines.iter().filter(|line| line.is_input());
        let word = |line: &Line| {
            let kind = line.kind().expect("an input");
            let (low, high) = (line.p, line.q);
            let holds_zero = Range { low, high }.holds(Way::Short, kind, 0);
            match self.below(2) {
                0 if kind == Kind::Double && holds_zero => self.zero(),
                _ => self.declared(kind, [low, high]),
            }
        };
        inputs.map(word).collect()
    }

    /// A recipe on ranges at zero, with a frame. Half of its steps are fmin or fmax, the others any;
    /// few of them refuse.
    pub fn meeting(&mut self) -> Draft {
        let mut lines = vec![
            Line::input(Kind::Double, self.range_at_zero()),
            Line::input(Kind::Double, self.range_at_zero()),
            Line::constant(Kind::Double, self.zero()),
            Line::constant(Kind::Double, 1.25f64.to_bits()),
            Line::input_of([-3i64, 3]),
        ];
        let words = self.words_with_zeros(&lines);
        for _ in 0..1 + self.below(12) {
            let step = self.step_on(&lines);
            lines.push(step);
        }
        Draft { lines, words }
    }

    /// A step on these, fmin or fmax in half of the cases, a sum, difference or product in an eighth.
    fn step_on(&mut self, lines: &[Line]) -> Line {
        let steps: Vec<&Operation> = OPERATIONS.iter().filter(|step| step.uses_a()).collect();
        let opcode = match self.below(8) {
            0..=2 => self.one_of(&steps).opcode,
            3 => 0x40 + self.below(3) as u8,
            _ => 0x20 + self.below(2) as u8,
        };
        let operation = Operation::of_opcode(opcode).expect("an opcode");
        let kinds = operation.source.operands();
        let mut places = [0; 2];
        for (place, &kind) in places.iter_mut().zip(&kinds) {
            let of_kind = |&place: &usize| lines[place].kind() == Some(kind);
            let fit: Vec<usize> = (0..lines.len()).filter(of_kind).collect();
            *place = self.one_of(&fit);
        }
        // Mostly on the step before it, so that what is chosen there is handed on.
        let (operand, last) = (self.below(kinds.len() as u64) as usize, lines.len() - 1);
        if lines[last].kind() == Some(kinds[operand]) && self.below(4) != 0 {
            places[operand] = last;
        }
        if [0x22, 0x24].contains(&operation.opcode) && self.below(8) != 0 {
            places[1] = DIVISOR;
        }
        Line::step(operation.opcode, places[0], places[1])
    }
}
