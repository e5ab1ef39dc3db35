//! Frames and answers in decimal. The library reads and writes hexadecimal digits alone, so each line becomes a frame of them, of a kind that
//! the library refuses where the line is no good: what is refused, and by which number, is the library's to say.

use crate::number::{self, Slip};
use crate::recipe::Recipe;
use estrenwind::{Fault, Kind, Operation, TurnedDown, Value, FRAME_INPUT, MOST_FRAME, MOST_INPUTS};

/// Bytes of a line that is looked into. Sixteen numbers of 200 digits fit.
pub const LONGEST_LINE: usize = 4 << 10;

/// A byte that is in no frame, so that the library answers 31.
const NO_DIGIT: u8 = b'?';

/// Makes frames of lines of numbers.
pub struct FrameWriter {
    /// The kinds of the recipe's inputs.
    kinds: Vec<Kind>,
}

impl FrameWriter {
    pub fn new(recipe: &Recipe) -> FrameWriter {
        let kinds = recipe
            .inputs()
            .into_iter()
            .map(|input| recipe.kind(input))
            .collect();
        FrameWriter { kinds }
    }

    /// The frames of some lines, each with its line feed.
    pub fn frames(&self, lines: &[u8]) -> Vec<u8> {
        let mut frames = Vec::new();
        for line in lines.split_inclusive(|&byte| byte == b'\n') {
            self.write(line.strip_suffix(b"\n").unwrap_or(line), &mut frames);
            frames.push(b'\n');
        }
        frames
    }

    /// The frame of one line.
    pub fn frame(&self, line: &[u8]) -> Vec<u8> {
        let mut frame = Vec::new();
        self.write(line, &mut frame);
        frame
    }

    /// Adds the frame of a line, both without their line feed: 16 digits for each number, so that the library answers 30 where there are too
    /// few or too many of them.
    fn write(&self, line: &[u8], frame: &mut Vec<u8>) {
        if line.len() > LONGEST_LINE {
            frame.resize(frame.len() + MOST_FRAME + 1, NO_DIGIT);
            return;
        }
        // With one more than any recipe has there are too many, however many follow.
        for (place, text) in fields(line).take(MOST_INPUTS + 1).enumerate() {
            match self.kinds.get(place).map(|&kind| read(text, kind)) {
                Some(Some(word)) => {
                    frame.extend_from_slice(format!("{word:0FRAME_INPUT$x}").as_bytes())
                }
                _ => frame.extend_from_slice(&[NO_DIGIT; FRAME_INPUT]),
            }
        }
    }
}

/// The 64 bits of a number; none where a text is not one of the kind. A NaN is handed on, for the library to refuse with 32.
fn read(text: &[u8], kind: Kind) -> Option<u64> {
    match (number::read(std::str::from_utf8(text).ok()?, kind), kind) {
        (Ok(word), _) => Some(word),
        (Err(Slip::Nan), Kind::Double) => Some(f64::NAN.to_bits()),
        (Err(_), _) => None,
    }
}

/// The texts of a line: between them stand blanks, or a comma with or without blanks. Nothing between two commas is a text of its own, and no
/// number: were it passed over, the numbers after it would be taken for other inputs.
fn fields(line: &[u8]) -> impl Iterator<Item = &[u8]> {
    let is_blank = |byte: &u8| matches!(byte, b' ' | b'\t');
    let most = if line.iter().all(is_blank) {
        0
    } else {
        usize::MAX
    };
    let between_commas = line.split(|&byte| byte == b',').flat_map(move |part| {
        let mut texts = part
            .split(is_blank)
            .filter(|text| !text.is_empty())
            .peekable();
        let nothing = texts.peek().is_none().then_some(&b""[..]);
        nothing.into_iter().chain(texts)
    });
    between_commas.take(most)
}

/// A line of answers without its line feed.
pub fn answer_text(recipe: &Recipe, answer: Result<Value, TurnedDown>) -> String {
    match answer {
        Ok(value) => number::text(value),
        Err(refused) => refusal_text(recipe, refused, true),
    }
}

/// `refused 32 at u: the input is a NaN or outside its range`. The crate's words for 30 and 31 are of hexadecimal digits, which a decimal frame
/// does not have; those for 20 are of every step that is refused with it, and here it is known which of them it was.
pub fn refusal_text(recipe: &Recipe, refused: TurnedDown, decimal: bool) -> String {
    let number = refused.fault.number();
    match refused.fault {
        Fault::Frame if decimal => {
            format!("refused {number}: the frame does not have one number for each input")
        }
        Fault::FrameDigit if decimal => {
            format!("refused {number}: not a number of the input's kind in the frame")
        }
        fault @ (Fault::Frame | Fault::FrameDigit) => format!("refused {number}: {fault}"),
        fault => match (recipe.names.get(refused.place), fault) {
            (Some(name), Fault::Remainder) => {
                let operation = recipe.steps[refused.place].operation;
                let or_by_zero = match operation {
                    Operation::Fmod | Operation::Remainder => ", or by zero",
                    _ => "",
                };
                let operation = operation.name();
                format!("refused {number} at {name}: {operation} of an infinite number{or_by_zero}")
            }
            (Some(name), fault) => format!("refused {number} at {name}: {fault}"),
            (None, fault) => format!("refused {number}: {fault}"),
        },
    }
}

#[cfg(test)]
mod tests {
    use super::*;
    use estrenwind::Step;

    /// Inputs x, a double, and n, a whole number; the name of the answer is y.
    fn recipe() -> Recipe {
        let step = |operation, a, p, q| Step {
            operation,
            a,
            b: 1,
            p,
            q,
        };
        let steps = vec![
            Step {
                b: 0,
                ..step(Operation::Input, 0, (-8.0f64).to_bits(), 8.0f64.to_bits())
            },
            Step {
                b: 0,
                ..step(Operation::WholeInput, 0, 0, 9)
            },
            step(Operation::Ldexp, 0, 0, 0),
        ];
        let names = ["x", "n", "y"].map(str::to_owned).to_vec();
        Recipe {
            file: "test".to_owned(),
            text: crate::recipe::text_of(&steps),
            steps,
            names,
        }
    }

    fn frame(line: &str) -> String {
        String::from_utf8(FrameWriter::new(&recipe()).frame(line.as_bytes())).unwrap()
    }

    fn answer(line: &str) -> String {
        let recipe = recipe();
        let answer = estrenwind::run(&recipe.text, frame(line).as_bytes(), &mut [0; 128]);
        answer_text(&recipe, answer)
    }

    #[test]
    fn what_stands_between_numbers() {
        for line in [
            "1.5 3",
            "1.5,3",
            "1.5\t3",
            "  1.5 ,\t3  ",
            "+1.5, 3",
            "1.5   3",
            "0x1.8p0 3",
        ] {
            assert_eq!(frame(line), "3ff80000000000000000000000000003", "{line}");
            assert_eq!(answer(line), "12");
        }
    }

    #[test]
    fn refused_lines() {
        let count = "refused 30: the frame does not have one number for each input";
        let text = "refused 31: not a number of the input's kind in the frame";
        let range = |name| format!("refused 32 at {name}: the input is a NaN or outside its range");
        for line in [
            "",
            "   ",
            "1",
            "1 2 3",
            "1,2,",
            ",1,2",
            "1,,2",
            &"1 ".repeat(17),
            &"1 ".repeat(2_000),
            &"1".repeat(10_000),
        ] {
            assert_eq!(answer(line), count, "{line}");
        }
        for line in [
            "1 x",
            "x 1",
            "1.5 3.0",
            "1,",
            ",1",
            "1e999 1",
            "1 99999999999999999999",
            "1 nan",
            "1 3\r",
            "1 \u{e9}",
            "?? 1",
        ] {
            assert_eq!(answer(line), text, "{line}");
        }
        assert_eq!(answer("nan 1"), range("x"));
        assert_eq!(answer("9 1"), range("x"));
        assert_eq!(answer("inf 1"), range("x"));
        assert_eq!(answer("1 10"), range("n"));
        assert_eq!(answer("-8, 9"), "-4096");
    }

    #[test]
    fn bytes_that_are_no_text() {
        let frame = FrameWriter::new(&recipe()).frame(b"1 \xff");
        assert_eq!(frame, b"3ff0000000000000????????????????");
    }

    #[test]
    fn other_refusals() {
        let text =
            |fault, place, decimal| refusal_text(&recipe(), TurnedDown { fault, place }, decimal);
        assert_eq!(
            text(Fault::Overflow, 2, true),
            "refused 21 at y: the answer does not fit"
        );
        assert_eq!(
            text(Fault::Frame, 0, false),
            "refused 30: the frame does not have 16 digits for each input"
        );
        assert_eq!(
            text(Fault::FrameDigit, 0, false),
            "refused 31: not a lower-case hexadecimal digit in the frame"
        );
        assert_eq!(text(Fault::Other(99), 9, true), "refused 99: refusal 99");
    }

    /// 20 names the step's own operation, and what of it is refused.
    #[test]
    fn refused_operands() {
        for (operation, words) in [
            (Operation::Fmod, "fmod of an infinite number, or by zero"),
            (
                Operation::Remainder,
                "remainder of an infinite number, or by zero",
            ),
            (Operation::Add, "add of an infinite number"),
            (Operation::Subtract, "subtract of an infinite number"),
            (Operation::Multiply, "multiply of an infinite number"),
        ] {
            let mut recipe = recipe();
            recipe.steps[2].operation = operation;
            let refused = TurnedDown {
                fault: Fault::Remainder,
                place: 2,
            };
            assert_eq!(
                refusal_text(&recipe, refused, true),
                format!("refused 20 at y: {words}")
            );
        }
    }
}
