//! The programs `sheet` and `run` of document 01, "Sheet and run on paper", and `explain` of
//! request W-205, each as a function from all bytes of its input to all bytes of its output.

use crate::reference::recipe::text::{self, MOST_STEPS};
use crate::reference::recipe::{explain, run, sheet, Explanation, Refusal, Way};
use std::io::{self, Read, Write};

/// Bytes among which the empty line after a recipe has to be found: as many as the longest recipe
/// has, and the empty line's own line feed.
const SEARCHED: usize = 4_993;

/// Bytes of a frame line, its line feed not counted.
const LONGEST_FRAME: usize = 256;

/// "The sheet program reads a recipe from standard input, writes its sheet."
pub fn sheet_output(way: Way, input: &[u8]) -> Vec<u8> {
    let room = MOST_STEPS * sheet::LINE;
    match sheet::sheet(way, input, room) {
        Ok(ranges) => sheet::bytes(&ranges),
        Err(refusal) => refusal_line(refusal),
    }
}

/// "A program that reads as the sheet program does and writes one line": "the step, the operand's
/// step and a reason code, two hex digits each, run together", "a passed recipe answers 00; a
/// recipe refused earlier gives that refusal".
pub fn explain_output(way: Way, input: &[u8]) -> Vec<u8> {
    match explain(way, input) {
        Err(refusal) => refusal_line(refusal),
        Ok(None) => line(format_args!("00")),
        Ok(Some(explanation)) => {
            let Explanation {
                step,
                operand,
                code,
            } = explanation;
            line(format_args!("{step:02x}{operand:02x}{code:02x}"))
        }
    }
}

/// Answers the recipe on standard input to standard output, as a program over the reference.
pub fn answer_recipe(output: fn(Way, &[u8]) -> Vec<u8>) {
    /// One byte more than the longest recipe has: enough to see that a text is too long.
    const ENOUGH: u64 = 4_993;
    let mut input = Vec::new();
    // An input that fails is taken to end there, and a failing output has nobody to tell.
    let _ = io::stdin().lock().take(ENOUGH).read_to_end(&mut input);
    let _ = io::stdout().write_all(&output(Way::Exact, &input));
}

/// "The run program reads a recipe, an empty line, then one frame a line .. It answers a line a
/// frame."
pub fn run_output(way: Way, input: &[u8]) -> Vec<u8> {
    let searched = &input[..input.len().min(SEARCHED)];
    let (recipe, frames) = match empty_line(searched) {
        Some(place) => (&input[..place], &input[place + 1..]),
        None if input.len() > SEARCHED => return refusal_line(Refusal::whole_call(10)),
        None => (input, &[][..]),
    };
    if let Err(refusal) = text::steps(way, recipe) {
        return refusal_line(refusal);
    }
    let answers = lines(frames).map(|frame| answer_line(way, recipe, frame));
    answers.collect::<Vec<_>>().concat()
}

/// Where the line feed of the first empty line is: one that starts the input or follows another.
fn empty_line(input: &[u8]) -> Option<usize> {
    (0..input.len()).find(|&i| input[i] == b'\n' && (i == 0 || input[i - 1] == b'\n'))
}

/// "Only a last frame line may lack its line feed; no bytes after a line feed are no frame."
fn lines(frames: &[u8]) -> impl Iterator<Item = &[u8]> {
    frames
        .split_inclusive(|&byte| byte == b'\n')
        .map(|line| line.strip_suffix(b"\n").unwrap_or(line))
}

fn answer_line(way: Way, recipe: &[u8], frame: &[u8]) -> Vec<u8> {
    if frame.len() > LONGEST_FRAME {
        return refusal_line(Refusal::whole_call(30));
    }
    match run(way, recipe, frame, MOST_STEPS) {
        Err(refusal) => refusal_line(refusal),
        Ok(values) => {
            let last = values.last().expect("a recipe has a step");
            line(format_args!("{:02x}{:016x}", last.kind as u8, last.word))
        }
    }
}

/// "A refusal line is ff, number and place, two hex digits each."
fn refusal_line(Refusal { number, place }: Refusal) -> Vec<u8> {
    line(format_args!("ff{number:02x}{place:02x}"))
}

fn line(text: std::fmt::Arguments) -> Vec<u8> {
    let mut line = Vec::new();
    writeln!(line, "{text}").expect("a vector takes every byte");
    line
}

#[cfg(test)]
mod tests {
    use super::*;

    const RECIPE: &str = "\
010000c004000000000000401d000000000000
10000000000000000000000000000000000000
18010000000000000000000000000000000000
";

    fn answers(input: &str) -> String {
        String::from_utf8(run_output(Way::Exact, input.as_bytes())).unwrap()
    }

    #[test]
    fn the_example_of_document_01() {
        let input = format!("{RECIPE}\nbfe0000000000000\n401e000000000000\n");
        assert_eq!(answers(&input), "02ffffffffffffffff\nff2000\n");
    }

    /// Lines of W-205: nothing to explain, a step, and a recipe refused earlier.
    #[test]
    fn the_lines_of_an_explanation() {
        let explain = |input: &str| explain_output(Way::Exact, input.as_bytes());
        assert_eq!(explain(RECIPE), b"00\n");
        assert_eq!(explain(&RECIPE.replace("401d", "7ff0")), b"020105\n");
        assert_eq!(explain(&RECIPE.replace("1801", "1802")), b"ff0e02\n");
        assert_eq!(explain(&format!("{RECIPE}\n")), b"ff0a00\n");
    }

    #[test]
    fn what_is_a_frame() {
        assert_eq!(answers(RECIPE), "");
        assert_eq!(answers(&format!("{RECIPE}\n")), "");
        assert_eq!(answers(&format!("{RECIPE}\n\n")), "ff1e00\n");
        assert_eq!(
            answers(&format!("{RECIPE}\n\nbfe0000000000000")),
            "ff1e00\n02ffffffffffffffff\n"
        );
    }

    #[test]
    fn where_the_recipe_ends() {
        assert_eq!(answers(""), "ff0a00\n");
        assert_eq!(answers("\n"), "ff0a00\n");
        assert_eq!(answers(&RECIPE[..116]), "ff0a00\n");
        let longest = format!("{}{}", RECIPE, &RECIPE[39..78].repeat(125));
        assert_eq!(longest.len(), 4_992);
        let frame = "bfe0000000000000";
        assert_eq!(answers(&longest), "");
        assert_eq!(
            answers(&format!("{longest}\n{frame}")),
            "01bff0000000000000\n"
        );
        assert_eq!(answers(&format!("{longest}{frame}\n\n{frame}")), "ff0a00\n");
    }
}
