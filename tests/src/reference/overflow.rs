//! Results that may lie beyond the largest finite number.

use super::format::Format;
use super::natural::Natural;
use crate::answer::Answer;

/// The pattern with this sign bit and so many units. Refuses 3 where they reach infinity: the
/// infinity of that sign.
pub fn finite_or_refused(format: &Format, sign: u64, units: &Natural) -> Answer {
    if units.size() > format.infinity_log2() {
        Answer::refused(3, sign | format.infinity())
    } else {
        Answer::word(sign | format.encode(units))
    }
}
