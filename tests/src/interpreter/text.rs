//! Text to steps.

use super::Kind::{self, Double, Whole};
use super::Refused;
use crate::reference::{Class, BINARY64};

pub const LINE: usize = 39;
pub const MOST_STEPS: usize = 128;
const MOST_INPUTS: usize = 16;

pub struct Step {
    pub opcode: u8,
    pub kind: Kind,
    pub a: usize,
    pub b: usize,
    pub p: u64,
    pub q: u64,
}

pub fn parse(text: &[u8]) -> Result<Vec<Step>, Refused> {
    if text.is_empty() || !text.len().is_multiple_of(LINE) || text.len() > LINE * MOST_STEPS {
        return Err((10, 0));
    }
    let mut steps = Vec::with_capacity(text.len() / LINE);
    let mut inputs = 0;
    for (place, line) in text.chunks_exact(LINE).enumerate() {
        let step = parse_line(line, &steps).map_err(|number| (number, place))?;
        if step.opcode <= 0x02 {
            inputs += 1;
            if inputs > MOST_INPUTS {
                return Err((17, place));
            }
        }
        steps.push(step);
    }
    Ok(steps)
}

fn digit(byte: u8) -> Option<u64> {
    match byte {
        b'0'..=b'9' => Some((byte - b'0').into()),
        b'a'..=b'f' => Some((byte - b'a' + 10).into()),
        _ => None,
    }
}

pub fn hexadecimal(digits: &[u8]) -> Option<u64> {
    digits
        .iter()
        .try_fold(0, |number, &byte| Some(number << 4 | digit(byte)?))
}

fn fields(line: &[u8]) -> Option<(u8, u64, u64, u64, u64)> {
    let opcode = hexadecimal(&line[..2])?;
    let (a, b) = (hexadecimal(&line[2..4])?, hexadecimal(&line[4..6])?);
    let (p, q) = (hexadecimal(&line[6..22])?, hexadecimal(&line[22..38])?);
    (line[38] == b'\n').then_some((opcode as u8, a, b, p, q))
}

fn parse_line(line: &[u8], earlier: &[Step]) -> Result<Step, u64> {
    let (opcode, a, b, p, q) = fields(line).ok_or(11u64)?;
    // The kind of the value, and those of A and B where they are used.
    let (kind, of_a, of_b) = match opcode {
        0x01 | 0x03 => (Double, None, None),
        0x02 | 0x04 => (Whole, None, None),
        0x10..=0x17 => (Double, Some(Double), None),
        0x18 => (Whole, Some(Double), None),
        0x20..=0x22 | 0x24 | 0x40..=0x42 => (Double, Some(Double), Some(Double)),
        0x23 => (Double, Some(Double), Some(Whole)),
        0x30 | 0x31 => (Whole, Some(Whole), Some(Whole)),
        0x32 => (Double, Some(Whole), None),
        _ => return Err(12),
    };
    let (input, constant) = (opcode <= 0x02, opcode == 0x03 || opcode == 0x04);
    if a != 0 && of_a.is_none()
        || b != 0 && of_b.is_none()
        || p != 0 && !(input || constant)
        || q != 0 && !input
    {
        return Err(13);
    }
    let (a, b) = (a as usize, b as usize);
    if of_a.is_some() && a >= earlier.len() || of_b.is_some() && b >= earlier.len() {
        return Err(14);
    }
    if of_a.is_some_and(|kind| earlier[a].kind != kind)
        || of_b.is_some_and(|kind| earlier[b].kind != kind)
    {
        return Err(15);
    }
    let unordered = match opcode {
        0x01 => is_nan(p) || is_nan(q) || BINARY64.rank(p) > BINARY64.rank(q),
        0x02 => p as i64 > q as i64,
        0x03 => is_nan(p),
        _ => false,
    };
    if unordered {
        return Err(16);
    }
    Ok(Step {
        opcode,
        kind,
        a,
        b,
        p,
        q,
    })
}

pub fn is_nan(word: u64) -> bool {
    BINARY64.classify(word) == Class::Nan
}
