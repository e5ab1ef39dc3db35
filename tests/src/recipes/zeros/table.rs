//! What was met, as a table of at most 100 columns.

use super::counts::{Counts, Tally};
use super::difference::{Fate, Part};
use crate::reference::recipe::OPERATIONS;
use std::fmt;

/// What document 01's table of opcodes calls a step.
pub fn name(opcode: u8) -> &'static str {
    match opcode {
        0x01 => "double input",
        0x02 => "whole input",
        0x03 => "double constant",
        0x04 => "whole constant",
        0x10 => "floor",
        0x11 => "ceil",
        0x12 => "trunc",
        0x13 => "round",
        0x14 => "nearbyint",
        0x15 => "modf's fraction",
        0x16 => "fabs",
        0x17 => "negate",
        0x18 => "lround",
        0x20 => "fmin",
        0x21 => "fmax",
        0x22 => "fmod",
        0x23 => "ldexp",
        0x24 => "remainder",
        0x30 => "whole A+B",
        0x31 => "whole A-B",
        0x32 => "whole to double",
        0x40 => "add",
        0x41 => "subtract",
        0x42 => "multiply",
        _ => panic!("{opcode:x} is no opcode"),
    }
}

impl fmt::Display for Counts {
    fn fmt(&self, f: &mut fmt::Formatter) -> fmt::Result {
        for (what, tally) in [("sheets", &self.sheets), ("runs", &self.runs)] {
            writeln!(f, "{what}: {tally}")?;
        }
        let columns = " compared  chosen  handed on    ended";
        writeln!(f, "\n{:19} | {:36} | ends of sheets", "", "words of runs")?;
        writeln!(f, "{:19} |{columns} |{columns}", "step")?;
        for operation in &OPERATIONS {
            let opcode = operation.opcode;
            write!(f, "{opcode:02x} {:16}", name(opcode))?;
            self.write_cells(f, opcode, &[Part::Word])?;
            self.write_cells(f, opcode, &[Part::Low, Part::High])?;
            writeln!(f)?;
        }
        Ok(())
    }
}

impl Counts {
    /// The cells of an opcode, of these parts together.
    fn write_cells(&self, f: &mut fmt::Formatter, opcode: u8, parts: &[Part]) -> fmt::Result {
        let compared: u64 = parts.iter().map(|&part| self.compared(opcode, part)).sum();
        write!(f, " |{compared:9}")?;
        for (width, fate) in [
            (8, Fate::ChosenHere),
            (11, Fate::HandedOn),
            (9, Fate::Ended),
        ] {
            let met: u64 = parts.iter().map(|&part| self.met(opcode, part, fate)).sum();
            write!(f, "{met:width$}")?;
        }
        Ok(())
    }
}

/// How many were worked by both rules, and how many refused by both, by refusal.
impl fmt::Display for Tally {
    fn fmt(&self, f: &mut fmt::Formatter) -> fmt::Result {
        let refused: u64 = self.refused.values().sum();
        write!(
            f,
            "{} worked by both rules, {refused} refused by both",
            self.worked
        )?;
        let refusals = self.refused.iter();
        let refusals: Vec<String> = refusals
            .map(|(number, met)| format!("{number}: {met}"))
            .collect();
        for refusals in refusals.chunks(8) {
            write!(f, "\n    {}", refusals.join(", "))?;
        }
        Ok(())
    }
}
