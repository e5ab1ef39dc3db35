//! Holds the two rules for the zeros in fmin and fmax together, document 01's and W-202's, over
//! recipes and frames, and prints where a zero's sign differs.
//!
//! Compared: words of completed runs and ends of passed sheets. Chosen: at an fmin or fmax whose
//! operands are the same by both rules. Handed on: from an operand that differs. Ended: an operand
//! differs, and the step doesn't. Exit status 1 where anything else differs.

use estrenwind_tests::recipes::zeros::{as_elsewhere, of_meeting_zeros, Counts, Fate, Part};
use std::io::{self, Write};
use std::process::ExitCode;

/// The examples that are printed.
const EXAMPLES: [(u8, Part, Fate); 11] = [
    (0x20, Part::Word, Fate::ChosenHere),
    (0x21, Part::Word, Fate::ChosenHere),
    (0x10, Part::Word, Fate::HandedOn),
    (0x22, Part::Word, Fate::HandedOn),
    (0x24, Part::Word, Fate::HandedOn),
    (0x40, Part::Word, Fate::HandedOn),
    (0x42, Part::Word, Fate::HandedOn),
    (0x20, Part::Low, Fate::ChosenHere),
    (0x21, Part::High, Fate::ChosenHere),
    (0x17, Part::High, Fate::HandedOn),
    (0x42, Part::Low, Fate::ChosenHere),
];

fn write(output: &mut impl Write) -> io::Result<Counts> {
    let mut all = Counts::default();
    for (title, counts) in [
        ("Recipes as the other tests have them", as_elsewhere()),
        (
            "Recipes in which zeros of both signs meet",
            of_meeting_zeros(),
        ),
    ] {
        writeln!(output, "{title}\n\n{counts}")?;
        all.join(counts);
    }
    for (opcode, part, fate) in EXAMPLES {
        if let Some(example) = all.example(opcode, part, fate) {
            writeln!(output, "{example}")?;
        }
    }
    for wrong in &all.wrong {
        writeln!(output, "WRONG: {wrong}\n")?;
    }
    Ok(all)
}

fn main() -> ExitCode {
    match write(&mut io::stdout().lock()) {
        Ok(counts) if counts.wrong.is_empty() => ExitCode::SUCCESS,
        Ok(_) => ExitCode::FAILURE,
        Err(error) => {
            eprintln!("zero_rules: {error}");
            ExitCode::FAILURE
        }
    }
}
