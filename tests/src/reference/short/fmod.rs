//! fmod in machine words.

use super::{pack, residue, split};
use crate::answer::Answer;
use crate::reference::{Class, Format};

pub fn fmod(format: &Format, x: u64, y: u64) -> Answer {
    if let Some(nan) = format.first_nan(x, y) {
        return Answer::word(format.quieted(nan));
    }
    match (format.classify(x), format.classify(y)) {
        (Class::Infinite, _) | (_, Class::Zero) => Answer::refused(2, format.default_nan()),
        _ if format.fabs(x) < format.fabs(y) => Answer::word(x),
        _ => Answer::word((x & format.sign_bit()) | rest(format, x, y)),
    }
}

/// The sign-less pattern of what |x| leaves when divided by |y|, |x| not below |y|. Then x's exponent
/// is not below y's, and the power of two of y is cancelled.
fn rest(format: &Format, x: u64, y: u64) -> u64 {
    let (a, exponent) = split(format, x);
    let (b, cancelled) = split(format, y);
    pack(format, residue(a, exponent - cancelled, b), cancelled)
}
