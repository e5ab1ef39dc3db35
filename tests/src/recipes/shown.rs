//! Lines of a sheet read back, as whoever gets a sheet would.

use crate::reference::recipe::Kind;
use std::str;

/// What a line of a sheet shows of its step.
#[derive(Clone, Copy, Debug, PartialEq, Eq)]
pub struct Shown {
    pub kind: Kind,
    /// Whether the mark is 01 and not 00.
    pub mark: bool,
    pub low: u64,
    pub high: u64,
}

impl Shown {
    pub fn ends(&self) -> [u64; 2] {
        [self.low, self.high]
    }
}

/// The lines of a sheet: step 2 digits, kind 2, mark 2, low 16, high 16 and a line feed each. Stops
/// where it isn't one.
pub fn read(sheet: &[u8]) -> Vec<Shown> {
    let sheet = str::from_utf8(sheet).expect("a sheet is text");
    let lines = sheet.split_inclusive('\n').enumerate();
    let line = |(step, line)| shown(step, line).unwrap_or_else(|| panic!("{line:?}\n{sheet}"));
    lines.map(line).collect()
}

/// What the line of a step shows; none where it is no such line.
fn shown(step: usize, line: &str) -> Option<Shown> {
    let digits = line.strip_suffix('\n')?;
    let is_digit = |byte| matches!(byte, b'0'..=b'9' | b'a'..=b'f');
    if digits.len() != 38 || !digits.bytes().all(is_digit) {
        return None;
    }
    let (place, digits) = digits.split_at(2);
    let (kind, digits) = digits.split_at(2);
    let (mark, digits) = digits.split_at(2);
    let number = |digits| u64::from_str_radix(digits, 16).ok();
    let (low, high) = digits.split_at(16);
    (number(place)? == step as u64).then_some(Shown {
        kind: match kind {
            "01" => Kind::Double,
            "02" => Kind::Whole,
            _ => return None,
        },
        mark: match mark {
            "00" => false,
            "01" => true,
            _ => return None,
        },
        low: number(low)?,
        high: number(high)?,
    })
}

/// What a mark says of a double, by the language's own operations.
pub fn is_finite_and_integral(word: u64) -> bool {
    let double = f64::from_bits(word);
    double.is_finite() && double.fract() == 0.0
}

#[cfg(test)]
mod tests {
    use super::*;

    #[test]
    fn lines_are_read_as_they_are_written() {
        let lines = b"000100c004000000000000401d000000000000\n\
                      010201fffffffffffffffd0000000000000007\n";
        let double = Shown {
            kind: Kind::Double,
            mark: false,
            low: 0xc004000000000000,
            high: 0x401d000000000000,
        };
        let whole = Shown {
            kind: Kind::Whole,
            mark: true,
            low: -3i64 as u64,
            high: 7,
        };
        assert_eq!(read(lines), [double, whole]);
        assert_eq!(double.ends(), [0xc004000000000000, 0x401d000000000000]);
    }

    /// A reader that took anything would let every library pass.
    #[test]
    fn nothing_else_is_read() {
        let line = "000100c004000000000000401d000000000000\n";
        assert!(shown(0, line).is_some());
        assert!(shown(1, line).is_none());
        for (from, to) in [
            ("000100", "000000"),
            ("000100", "000300"),
            ("000100", "000102"),
            ("000100", "000110"),
            ("000100", "0001ff"),
            ("000100", "0001"), // as it was before W-203
            ("000100", "00010000"),
            ("c004", "C004"),
            ("c004", "+004"),
            ("\n", ""),
            ("\n", "\r\n"),
            ("\n", "0\n"),
        ] {
            let other = line.replace(from, to);
            assert_ne!(other, line);
            assert!(shown(0, &other).is_none(), "{other:?}");
        }
    }

    #[test]
    fn what_a_mark_says() {
        for x in [0.0, -0.0, 1.0, -7.0, 4503599627370495.0, 1e300, f64::MAX] {
            assert!(is_finite_and_integral(x.to_bits()), "{x:e}");
        }
        for x in [
            0.5,
            -1.5,
            4503599627370495.5,
            f64::from_bits(1),
            f64::MIN_POSITIVE,
            f64::INFINITY,
            f64::NEG_INFINITY,
            f64::NAN,
        ] {
            assert!(!is_finite_and_integral(x.to_bits()), "{x:e}");
        }
    }
}
