//! fmin and fmax as document 01 has them without W-202: of equal operands the first, and the two
//! zeros are equal. No answer of today comes from here. It is what W-202's answers are compared
//! with, over whole recipes, to show what the request changed and that it changed nothing else.

use super::order::chosen;
use crate::reference::Format;

pub fn fmin(format: &Format, x: u64, y: u64) -> u64 {
    chosen(format, x, y, || format.rank(x) <= format.rank(y))
}

pub fn fmax(format: &Format, x: u64, y: u64) -> u64 {
    chosen(format, x, y, || format.rank(x) >= format.rank(y))
}
