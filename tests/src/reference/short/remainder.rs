//! remainder and remquo in machine words.

use super::{pack, residue, split};
use crate::answer::Answer;
use crate::reference::fmod::without_division;
use crate::reference::Format;

pub fn remainder(format: &Format, x: u64, y: u64) -> Answer {
    let Answer { refusal, words } = remquo(format, x, y);
    Answer::refused(refusal, words[0])
}

pub fn remquo(format: &Format, x: u64, y: u64) -> Answer {
    without_division(format, x, y).unwrap_or_else(|| divided(format, x, y))
}

/// The division is by eight times y, which leaves the last three digits of the quotient as well: of
/// a = (8·q + k)·b + r it leaves k·b + r.
fn divided(format: &Format, x: u64, y: u64) -> Answer {
    let (a, exponent) = split(format, x);
    let (b, cancelled) = split(format, y);
    // Where y's exponent is the larger, y has all its digits. By one place, x may still be more than
    // half of it; by two or more it is less, and n is 0.
    let down = cancelled.saturating_sub(exponent);
    if down > 1 {
        return Answer::word(x);
    }
    let (b, cancelled) = (b << down, cancelled - down);
    let left = residue(a, exponent - cancelled, 8 * b);
    let (k, rest) = (left / b, left % b);
    let up = 2 * rest > b || 2 * rest == b && k % 2 == 1;
    let (sign, magnitude) = match up {
        false => (x, rest),
        true => (format.negate(x), b - rest),
    };
    let word = (sign & format.sign_bit()) | pack(format, magnitude, cancelled);
    let digits = (k + up as u64) as i64 % 8;
    let opposite = format.is_negative(x ^ y);
    Answer::pair(word, if opposite { -digits } else { digits } as u64)
}
