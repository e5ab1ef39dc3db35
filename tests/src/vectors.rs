//! The cases of `vectors/`, and the lines in which programs read and answer them.
//!
//! A case is a line `function width operand ..`, operands in hexadecimal with all their digits; a
//! power of two has 16, as its two's complement. The width is that of the operand. From a `#` on, a
//! line is for its reader. The files hold no answers: the reference gives them.

use crate::answer::Answer;
use crate::functions::{format_of_width, Function};
use crate::reference::Format;

/// Names and texts, in the order in which programs get their cases.
const FILES: [(&str, &str); 7] = [
    ("roundings.txt", include_str!("../vectors/roundings.txt")),
    ("parts.txt", include_str!("../vectors/parts.txt")),
    ("scalings.txt", include_str!("../vectors/scalings.txt")),
    ("remainders.txt", include_str!("../vectors/remainders.txt")),
    ("neighbours.txt", include_str!("../vectors/neighbours.txt")),
    ("extremes.txt", include_str!("../vectors/extremes.txt")),
    ("halves.txt", include_str!("../vectors/halves.txt")),
];

pub struct Case {
    pub function: &'static Function,
    pub format: &'static Format,
    pub operands: [u64; 2],
}

/// The cases of all files. Stops at a line that isn't one.
pub fn cases() -> Vec<Case> {
    let mut cases = Vec::new();
    for (name, text) in FILES {
        for (index, line) in text.lines().enumerate() {
            let line = line.split('#').next().unwrap_or("").trim();
            if !line.is_empty() {
                let case = parse(line);
                cases.push(case.unwrap_or_else(|| panic!("{name}:{}: {line}", index + 1)));
            }
        }
    }
    cases
}

fn parse(line: &str) -> Option<Case> {
    let mut words = line.split_whitespace();
    let function = Function::named(words.next()?)?;
    let format = format_of_width(words.next()?.parse().ok()?)?;
    if !function.is_at(format) {
        return None;
    }
    let mut operands = [0; 2];
    for (operand, digits) in operands.iter_mut().zip(function.operands.digits(format)) {
        let word = words.next().filter(|word| word.len() == digits)?;
        *operand = u64::from_str_radix(word, 16).ok()?;
    }
    words.next().is_none().then_some(Case {
        function,
        format,
        operands,
    })
}

impl Case {
    pub fn expected(&self) -> Answer {
        let [x, y] = self.operands;
        (self.function.reference)(self.format, x, y)
    }

    /// What a program reads: function number, width and both operands, 40 bytes with the line feed.
    pub fn input_line(&self) -> String {
        let [x, y] = self.operands;
        let (number, width) = (self.function.number, self.format.width());
        format!("{number:02x} {width:02x} {x:016x} {y:016x}\n")
    }

    /// What it has to answer: refusal number and both words, 37 bytes with the line feed.
    pub fn output_line(&self) -> String {
        format!("{}\n", self.expected())
    }
}

#[cfg(test)]
mod tests {
    use super::*;

    #[test]
    fn a_case_is_read_as_it_stands() {
        let case = parse("lround 32 c0200000").unwrap();
        assert_eq!((case.function.name, case.format.width()), ("lround", 32));
        assert_eq!(case.operands, [0xc020_0000, 0]);

        let case = parse("fmod 32 c0f00000 40000000").unwrap();
        assert_eq!(case.operands, [0xc0f0_0000, 0x4000_0000]);

        let case = parse("ldexp 32 3f800000 ffffffffffffff6a").unwrap();
        assert_eq!(case.operands, [0x3f80_0000, -150i64 as u64]);

        let case = parse("nearbyint 16 c100").unwrap();
        assert_eq!((case.function.name, case.format.width()), ("nearbyint", 16));
        assert_eq!(case.operands, [0xc100, 0]);

        let case = parse("remquo 32 c0f00000 40000000").unwrap();
        assert_eq!((case.function.name, case.format.width()), ("remquo", 32));
        assert_eq!(case.operands, [0xc0f0_0000, 0x4000_0000]);

        let case = parse("f32_to_f16 32 477ff000").unwrap();
        assert_eq!(case.operands, [0x477f_f000, 0]);
    }

    /// A line with a mistake must not pass as some other case.
    #[test]
    fn a_line_with_a_mistake_is_no_case() {
        for line in [
            "floor",
            "floor 64",
            "flor 64 bfe0000000000000",
            "floor 63 bfe0000000000000",
            "floor 64 bfe00000",
            "floor 32 bfe0000000000000",
            "floor 64 bfe000000000000g",
            "floor 64 bfe0000000000000 0000000000000000",
            "fmod 64 bfe0000000000000",
            "fmod 32 bf000000 bfe0000000000000",
            "fmod 32 bf000000 bf000000 bf000000",
            "remainder 64 bfe0000000000000",
            "remquo 16 b800 b800",
            "ldexp 32 bf000000",
            "ldexp 32 bf000000 ffffff6a",
            "ldexp 64 bfe0000000000000 -150",
            "floor 16 bf000000",
            "lround 16 b800",
            "f16_to_f32 32 3f800000",
            "f32_to_f16 16 3c00",
        ] {
            assert!(parse(line).is_none(), "{line}");
        }
    }
}
