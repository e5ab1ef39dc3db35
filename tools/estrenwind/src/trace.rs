//! `estrenwind run --trace N`: every step of one frame, as a table for people.

use crate::decimal::{refusal_text, FrameWriter};
use crate::failure::{Failure, Status};
use crate::frames::{count_lines, length_of_lines};
use crate::number::{grouped, word_text};
use crate::recipe::{range_text, Recipe};
use crate::run::RunOptions;
use crate::table::{indented, wrapped, WIDTH};
use estrenwind::{read_digits, Fault, TurnedDown, FRAME_INPUT, MOST_STEPS};

/// Columns for names, at most. Those of the longest names go to lines of their own.
const MOST_NAME: usize = 14;

/// Columns of a step's number, and of its 64 bits.
const NUMBER: usize = 4;
const BITS: usize = 16;

/// Runs the frame of this number, from 1, and shows its steps; of a refused one, what led to it, and why.
pub fn trace(recipe: &Recipe, options: &RunOptions, number: u64) -> Result<Status, Failure> {
    let line = find(options, number)?;
    let frame = match options.decimal {
        true => FrameWriter::new(recipe).frame(&line),
        false => line,
    };
    let mut output = options.open_output()?;
    let mut words = [0; MOST_STEPS];
    let (shown, status) = match estrenwind::run(&recipe.text, &frame, &mut words) {
        Ok(_) => (
            table(&all_rows(recipe, recipe.steps.len(), &words)),
            Status::Well,
        ),
        Err(refused) => (
            refusal(recipe, &frame, refused, options.decimal),
            Status::FrameRefused,
        ),
    };
    output.write(shown.as_bytes())?;
    output.finish()?;
    Ok(status)
}

/// The line of this number, from 1, without its line feed.
fn find(options: &RunOptions, number: u64) -> Result<Vec<u8>, Failure> {
    let Some(mut before) = number.checked_sub(1) else {
        return Err(Failure::Usage("frames count from 1".to_owned()));
    };
    let mut frames = options.open_frames()?;
    loop {
        let lines = match frames.next_lines() {
            Ok(Some(lines)) => lines,
            Ok(None) => break,
            Err(error) => return Err(Failure::Files(frames.source().cannot_read(error))),
        };
        let count = count_lines(lines);
        if before < count {
            let rest = &lines[length_of_lines(lines, before)..];
            return Ok(rest
                .split(|&byte| byte == b'\n')
                .next()
                .unwrap_or(rest)
                .to_owned());
        }
        before -= count;
    }
    let (name, count) = (&frames.source().name, number - 1 - before);
    Err(Failure::Files(format!(
        "there is no frame {}: {name} has {}",
        grouped(number),
        grouped(count)
    )))
}

/// What there is to show of a refused frame.
fn refusal(recipe: &Recipe, frame: &[u8], refused: TurnedDown, decimal: bool) -> String {
    let words = wrapped(&refusal_text(recipe, refused, decimal));
    match refused.fault {
        Fault::Remainder | Fault::Overflow | Fault::Inexact => {
            let step = format!(
                "step {} is {}",
                refused.place,
                recipe.operation_text(refused.place)
            );
            format!(
                "{}\n{words}{}",
                before(recipe, frame, refused.place),
                wrapped(&step)
            )
        }
        Fault::Input => {
            let rows = input_rows(recipe, frame);
            let outside = rows.iter().find(|row| row.step == refused.place);
            let outside = outside.map_or(String::new(), |row| wrapped(&outside_text(recipe, row)));
            format!("{}\n{words}{outside}", table(&rows))
        }
        _ => words,
    }
}

/// The steps before one that refuses: the library's run of these alone, on the inputs that are theirs.
fn before(recipe: &Recipe, frame: &[u8], step: usize) -> String {
    let inputs = recipe
        .inputs()
        .into_iter()
        .filter(|&input| input < step)
        .count();
    let mut words = [0; MOST_STEPS];
    match estrenwind::run(
        &recipe.front(step),
        &frame[..FRAME_INPUT * inputs],
        &mut words,
    ) {
        Ok(_) => table(&all_rows(recipe, step, &words)),
        // No step before it refuses, so that this says that the library contradicts itself.
        Err(refused) => format!("the steps before it: {refused}\n"),
    }
}

fn outside_text(recipe: &Recipe, row: &Row) -> String {
    let step = &recipe.steps[row.step];
    let range = range_text(recipe.kind(row.step), step.p, step.q);
    format!("{} is {}, and its range is {range}", row.name, row.value)
}

/// A step as it is shown.
struct Row {
    step: usize,
    name: String,
    operation: String,
    value: String,
    bits: String,
}

fn row(recipe: &Recipe, step: usize, word: u64) -> Row {
    Row {
        step,
        name: recipe.names[step].clone(),
        operation: recipe.operation_text(step),
        value: word_text(recipe.kind(step), word),
        bits: format!("{word:016x}"),
    }
}

fn all_rows(recipe: &Recipe, steps: usize, words: &[u64]) -> Vec<Row> {
    (0..steps)
        .map(|step| row(recipe, step, words[step]))
        .collect()
}

/// The inputs as the frame has them, in their ranges or not.
fn input_rows(recipe: &Recipe, frame: &[u8]) -> Vec<Row> {
    let words = frame.chunks(FRAME_INPUT).map_while(read_digits);
    recipe
        .inputs()
        .into_iter()
        .zip(words)
        .map(|(input, word)| row(recipe, input, word))
        .collect()
}

/// A line per step, of 80 columns at most. What does not fit its column has lines to itself, above the value.
fn table(rows: &[Row]) -> String {
    let longest = |column: fn(&Row) -> &String, title: &str| {
        let lengths = rows.iter().map(|row| column(row).chars().count());
        lengths.chain([title.len()]).max().unwrap_or(0)
    };
    let name = longest(|row| &row.name, "name").min(MOST_NAME);
    let value = longest(|row| &row.value, "value");
    let others = NUMBER + 2 + name + 2 + 2 + value + 2 + BITS;
    let operation = longest(|row| &row.operation, "operation").min(WIDTH.saturating_sub(others));
    let line = |[a, b, c, d, e]: [&str; 5]| {
        format!("{a:>NUMBER$}  {b:<name$}  {c:<operation$}  {d:>value$}  {e}\n")
    };

    let mut text = line(["step", "name", "operation", "value", "bits"]);
    for row in rows {
        let number = row.step.to_string();
        let fits = row.name.chars().count() <= name && row.operation.chars().count() <= operation;
        if fits {
            text += &line([&number, &row.name, &row.operation, &row.value, &row.bits]);
        } else {
            text += &indented(
                &format!("{number:>NUMBER$}  {:<name$}  {}", row.name, row.operation),
                NUMBER + 2,
            );
            text += &line(["", "", "", &row.value, &row.bits]);
        }
    }
    text
}

#[cfg(test)]
mod tests {
    use super::*;
    use estrenwind::steps;

    /// Steps as a text of the library's, with names of this length.
    fn recipe(text: &str, length: usize) -> Recipe {
        let steps = steps(text.as_bytes()).unwrap();
        let names = (0..steps.len())
            .map(|step| format!("{step:a>length$}"))
            .collect();
        Recipe {
            file: "test".to_owned(),
            text: text.into(),
            steps,
            names,
        }
    }

    /// Two doubles from -4 to 4, fmod of the two, its floor, and that as a whole number.
    const REMAINDER: &str = "\
010000c0100000000000004010000000000000
010000c0100000000000004010000000000000
22000100000000000000000000000000000000
10020000000000000000000000000000000000
18030000000000000000000000000000000000
";

    fn shown(recipe: &Recipe, frame: &[f64]) -> String {
        let frame: String = frame
            .iter()
            .map(|x| format!("{:016x}", x.to_bits()))
            .collect();
        let mut words = [0; MOST_STEPS];
        match estrenwind::run(&recipe.text, frame.as_bytes(), &mut words) {
            Ok(_) => table(&all_rows(recipe, recipe.steps.len(), &words)),
            Err(refused) => refusal(recipe, frame.as_bytes(), refused, false),
        }
    }

    #[test]
    fn an_answered_frame() {
        let expected = "\
step  name  operation      value  bits
   0  a0    input -4 .. 4   -3.5  c00c000000000000
   1  a1    input -4 .. 4      2  4000000000000000
   2  a2    fmod a0 a1      -1.5  bff8000000000000
   3  a3    floor a2          -2  c000000000000000
   4  a4    lround a3         -2  fffffffffffffffe
";
        assert_eq!(shown(&recipe(REMAINDER, 2), &[-3.5, 2.0]), expected);
    }

    #[test]
    fn a_refused_step() {
        let expected = "\
step  name  operation      value  bits
   0  a0    input -4 .. 4    0.1  3fb999999999999a
   1  a1    input -4 .. 4     -0  8000000000000000

refused 20 at a2: fmod of an infinite number, or by zero
step 2 is fmod a0 a1
";
        assert_eq!(shown(&recipe(REMAINDER, 2), &[0.1, -0.0]), expected);
    }

    /// The same with the nearest remainder, step 24, in the place of fmod.
    #[test]
    fn the_nearest_remainder() {
        let nearest = recipe(&REMAINDER.replace("\n22", "\n24"), 2);
        let expected = "\
step  name  operation        value  bits
   0  a0    input -4 .. 4     -3.5  c00c000000000000
   1  a1    input -4 .. 4        2  4000000000000000
   2  a2    remainder a0 a1    0.5  3fe0000000000000
   3  a3    floor a2             0  0000000000000000
   4  a4    lround a3            0  0000000000000000
";
        assert_eq!(shown(&nearest, &[-3.5, 2.0]), expected);
        assert!(shown(&nearest, &[0.1, -0.0]).ends_with(
            "\nrefused 20 at a2: remainder of an infinite number, or by zero\nstep 2 is remainder a0 a1\n"
        ));
    }

    /// Two doubles without bounds, and their product: an infinite one is refused with 20, a product that is beyond every double with 21.
    #[test]
    fn products() {
        let any = "010000fff00000000000007ff0000000000000\n";
        let step = "42000100000000000000000000000000000000\n";
        let product = recipe(&format!("{any}{any}{step}"), 2);
        let expected = "\
step  name  operation          value  bits
   0  a0    input -inf .. inf    0.1  3fb999999999999a
   1  a1    input -inf .. inf   3000  40a7700000000000
   2  a2    multiply a0 a1       300  4072c00000000000
";
        assert_eq!(shown(&product, &[0.1, 3000.0]), expected);
        let ends = |frame: &[f64], words: &str| {
            let shown = shown(&product, frame);
            assert!(shown.ends_with(words), "{shown}");
        };
        ends(
            &[0.0, f64::INFINITY],
            "\nrefused 20 at a2: multiply of an infinite number\nstep 2 is multiply a0 a1\n",
        );
        ends(
            &[-1e200, 1e200],
            "\nrefused 21 at a2: the answer does not fit\nstep 2 is multiply a0 a1\n",
        );
    }

    #[test]
    fn a_refused_input() {
        let expected = "\
step  name  operation      value  bits
   0  a0    input -4 .. 4      1  3ff0000000000000
   1  a1    input -4 .. 4    NaN  7ff8000000000000

refused 32 at a1: the input is a NaN or outside its range
a1 is NaN, and its range is -4 .. 4
";
        assert_eq!(shown(&recipe(REMAINDER, 2), &[1.0, f64::NAN]), expected);
        assert!(shown(&recipe(REMAINDER, 2), &[5.0, 1.0])
            .ends_with("\na0 is 5, and its range is -4 .. 4\n"));
    }

    #[test]
    fn a_frame_that_is_none() {
        assert_eq!(
            shown(&recipe(REMAINDER, 2), &[1.0]),
            "refused 30: the frame does not have 16 digits for each input\n"
        );
        let refused = TurnedDown {
            fault: Fault::FrameDigit,
            place: 0,
        };
        let words = refusal(&recipe(REMAINDER, 2), b"", refused, true);
        assert_eq!(
            words,
            "refused 31: not a number of the input's kind in the frame\n"
        );
    }

    /// Whatever the names, only a name that is longer than a line is in one that is too long.
    #[test]
    fn eighty_columns() {
        for length in 1..100 {
            let recipe = recipe(REMAINDER, length);
            for frame in [
                [-3.5, 2.0],
                [f64::MIN_POSITIVE, -1.2345678901234567e-300],
                [0.1, 0.0],
                [9.0, 1.0],
            ] {
                let shown = shown(&recipe, &frame);
                for line in shown.lines() {
                    let words = line.split_whitespace().count();
                    assert!(
                        line.chars().count() <= WIDTH || (length > 60 && words <= 2),
                        "{length}: {line}"
                    );
                    assert_eq!(line.trim_end(), line);
                }
                if !shown.contains("refused") {
                    let last = shown.lines().last().unwrap();
                    assert_eq!(
                        last.len() - last.trim_end_matches(|c: char| c.is_ascii_hexdigit()).len(),
                        BITS
                    );
                }
            }
        }
    }
}
