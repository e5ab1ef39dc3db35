//! Frame lines answered one after the other, the recipe read once. The call is refused with 10 to 17
//! and 40, in that order; 30 to 32 and 20 to 22 stand in the answers.
//!
//! `programs` says of the program `run`, apart from this, what a line is answered with: the tests
//! hold the two together.

use super::operations::Way;
use super::text::{self, Step};
use super::{run, Refusal};

/// Bytes of the longest answer: kind 2 digits, word 16, and a line feed.
pub const LONGEST_ANSWER: usize = 19;

/// Bytes of the longest frame, the line feed after it not counted.
pub const LONGEST_FRAME: usize = 256;

/// How many bytes of the lines were read, line feeds counted, and the answers to these.
#[derive(Clone, Debug, Default, PartialEq, Eq)]
pub struct Answers {
    pub read: usize,
    pub bytes: Vec<u8>,
}

/// The answers to those of the lines that have their line feed, as long as the longest answer still
/// fits into the `lent` bytes of memory; or the refusal of the call.
pub fn run_lines(way: Way, text: &[u8], lines: &[u8], lent: usize) -> Result<Answers, Refusal> {
    let steps = text::steps(way, text)?;
    if lent < LONGEST_ANSWER {
        return Err(Refusal::whole_call(40));
    }
    let mut answers = Answers::default();
    for line in lines.split_inclusive(|&byte| byte == b'\n') {
        let Some(frame) = line.strip_suffix(b"\n") else {
            break;
        };
        if lent - answers.bytes.len() < LONGEST_ANSWER {
            break;
        }
        answers.bytes.extend(answer(way, &steps, frame).as_bytes());
        answers.read += line.len();
    }
    Ok(answers)
}

/// The last step's kind and word, or a refusal's number and place.
fn answer(way: Way, steps: &[Step], frame: &[u8]) -> String {
    let values = if frame.len() > LONGEST_FRAME {
        Err(Refusal::whole_call(30))
    } else {
        run::over(way, steps, frame)
    };
    match values {
        Ok(values) => {
            let last = values.last().expect("a recipe has a step");
            format!("{:02x}{:016x}\n", last.kind as u8, last.word)
        }
        Err(Refusal { number, place }) => format!("ff{number:02x}{place:02x}\n"),
    }
}

#[cfg(test)]
mod tests {
    use super::*;

    const RECIPE: &[u8] = b"\
010000c004000000000000401d000000000000
10000000000000000000000000000000000000
18010000000000000000000000000000000000
";

    /// Read, and the answers.
    fn answered(lines: &str, lent: usize) -> Result<(usize, String), u64> {
        let answers = run_lines(Way::Exact, RECIPE, lines.as_bytes(), lent);
        let told = |answers: Answers| (answers.read, String::from_utf8(answers.bytes).unwrap());
        answers.map(told).map_err(|refusal| refusal.number)
    }

    #[test]
    fn the_example_of_formats() {
        let (first, second) = ("bfe0000000000000\n", "401e000000000000\n");
        let lines = format!("{first}{second}");
        let both = "02ffffffffffffffff\nff2000\n";
        assert_eq!(answered(&lines, 38), Ok((34, both.into())));
        assert_eq!(answered(&lines, 37), Ok((17, both[..19].into())));
        assert_eq!(answered(&lines, 19), Ok((17, both[..19].into())));
        assert_eq!(answered(&lines, 18), Err(40));
        assert_eq!(answered(&lines[..33], 38), Ok((17, both[..19].into())));
        assert_eq!(answered(&lines[..16], 38), Ok((0, "".into())));
        // The refusal first: 12 bytes are too few for the next, and so are 18.
        let lines = format!("{second}{first}");
        assert_eq!(answered(&lines, 19), Ok((17, "ff2000\n".into())));
        assert_eq!(answered(&lines, 25), Ok((17, "ff2000\n".into())));
        let both = "ff2000\n02ffffffffffffffff\n";
        assert_eq!(answered(&lines, 26), Ok((34, both.into())));
    }

    #[test]
    fn a_line_of_over_256_bytes_is_no_frame() {
        for length in [255, 256, 257, 300, 10_000] {
            let line = format!("{}\n", "z".repeat(length));
            let answers = Ok((length + 1, "ff1e00\n".into()));
            assert_eq!(answered(&line, 19), answers, "{length}");
        }
    }
}
