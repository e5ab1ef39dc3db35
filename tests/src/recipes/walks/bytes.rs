//! Texts as bytes: every byte at every place, every opcode with every operand, every length, and
//! noise.

use crate::patterns::Random;
use crate::recipes::comparison::check;
use crate::recipes::{Call, Draft, Line};
use crate::reference::recipe::{Kind, Way};

/// A line of every sort: inputs and constants of both kinds, steps of one and two operands.
pub fn of_every_sort() -> Draft {
    Draft {
        lines: vec![
            Line::input(Kind::Double, [0xc004000000000000, 0x401d000000000000]),
            Line::input(Kind::Whole, [-7i64 as u64, 9]),
            Line::constant(Kind::Double, 0x4008000000000000),
            Line::constant(Kind::Whole, 5),
            Line::step(0x13, 0, 0),
            Line::step(0x22, 4, 2),
            Line::step(0x23, 5, 1),
            Line::step(0x30, 3, 1),
            Line::step(0x32, 7, 0),
            Line::step(0x24, 8, 2),
            Line::step(0x40, 9, 2),
            Line::step(0x41, 10, 8),
            Line::step(0x42, 11, 5),
            Line::step(0x18, 12, 0),
        ],
        words: vec![0xbff8000000000000, 4],
    }
}

/// Every byte at every place of a part of the call, its text or its frame.
pub fn every_byte_at_every_place<C: Call>(way: Way, part: impl Fn(&mut C) -> &mut Vec<u8>) {
    let mut call = C::of(&of_every_sort());
    assert_eq!(check(Way::Exact, &call).refusal(), 0);
    let whole = part(&mut call).clone();
    assert!(!whole.is_empty());
    for (place, &right) in whole.iter().enumerate() {
        for byte in 0..=255 {
            part(&mut call)[place] = byte;
            check(way, &call);
        }
        part(&mut call)[place] = right;
    }
}

/// Every opcode with every A, and with every B, at a step that has both kinds before it.
pub fn every_opcode_with_every_operand<C: Call>() {
    let mut draft = of_every_sort();
    let last = draft.lines.len();
    draft.lines.push(Line::default());
    for opcode in 0..=255 {
        for operand in 0..=255 {
            for (a, b) in [(operand, 0), (operand, 1), (0, operand), (1, operand)] {
                draft.lines[last] = Line::step(opcode, a, b);
                check(Way::Short, &C::of(&draft));
            }
        }
    }
}

/// Texts of every length up to the longest, from the start of this call's again and again. Its 128
/// steps are answered, and so are those that are left of them.
pub fn texts_of_every_length<C: Call>(whole: &C, longest: usize) {
    for length in 0..=longest {
        let text = whole.text().iter().cycle().take(length);
        let mut call = whole.clone();
        *call.text_mut() = text.copied().collect();
        let fits = length > 0 && length % 39 == 0 && length <= 4992;
        let refusal = if fits { 0 } else { 10 };
        let outcome = check(Way::Short, &call);
        assert_eq!(outcome.refusal(), refusal, "{length} bytes");
    }
}

/// Bytes of any value, and lines of nothing but digits, by rounds.
pub fn noise(random: &mut Random, round: u64) -> Vec<u8> {
    let lines = 1 + random.below(4) as usize;
    let mut text: Vec<u8> = Vec::with_capacity(39 * lines);
    for place in 0..39 * lines {
        let digit = b"0123456789abcdef"[random.below(16) as usize];
        text.push(match (round % 4, place % 39) {
            (0, _) => random.word() as u8,
            (1, 38) | (2, 38) | (3, 38) => b'\n',
            (1, _) => digit,
            (2, 0..=1) => b"0012"[random.below(4) as usize],
            (_, 0..=5) => b"01234"[random.below(5) as usize],
            (2, _) => digit,
            _ => b'0',
        });
    }
    if random.below(16) == 0 {
        text.truncate(random.below(39 * lines as u64) as usize);
    }
    text
}
