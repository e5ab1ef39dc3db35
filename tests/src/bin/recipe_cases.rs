//! Writes what programs in other languages, or on other processors, are tried on.
//!
//!     recipe_cases calls    calls of a run, each two 32-bit lengths (little-endian), a text and a frame
//!     recipe_cases input    an input for the program run: a recipe whose sheet passes, and frames

use estrenwind_tests::patterns::Random;
use estrenwind_tests::recipes::faults::{damaged, REFUSALS, SHEET_REFUSALS};
use estrenwind_tests::recipes::growing::{grow_sheet, Plan};
use estrenwind_tests::recipes::reasons::{FACTS, PLACES};
use estrenwind_tests::recipes::{frame, RunCall, SheetCall};
use std::io::{self, BufWriter, Write};

const CALLS: usize = 20_000;
const FRAMES: usize = 20_000;

/// One of these, or none.
fn fault(random: &mut Random, refusals: &[u64]) -> Vec<u64> {
    match random.below(2) {
        0 => vec![random.one_of(refusals)],
        _ => vec![],
    }
}

/// Runs that complete and runs with a fault, recipes whose sheets pass and ones with a fault, and
/// recipes turned down for every reason.
fn write_calls(output: &mut impl Write) -> io::Result<()> {
    let mut random = Random::new(91);
    for call in 0..CALLS {
        let no_frame = vec![b'0'; 16];
        let (text, frame) = match call % 3 {
            0 => {
                let fault = fault(&mut random, &REFUSALS);
                let (call, _) = damaged::<RunCall>(&mut random, &fault);
                (call.text, call.frame)
            }
            1 => {
                let fault = fault(&mut random, &SHEET_REFUSALS);
                let (call, _) = damaged::<SheetCall>(&mut random, &fault);
                (call.text, no_frame)
            }
            _ => {
                let (facts, place) = (random.one_of(&FACTS), random.one_of(&PLACES));
                let (draft, _) = random.turned_down(&facts, place, false);
                (draft.explain_call().text, no_frame)
            }
        };
        for bytes in [&text, &frame] {
            output.write_all(&(bytes.len() as u32).to_le_bytes())?;
        }
        output.write_all(&text)?;
        output.write_all(&frame)?;
    }
    Ok(())
}

fn write_input(output: &mut impl Write) -> io::Result<()> {
    let mut random = Random::new(92);
    let plan = Plan {
        steps: 128,
        inputs: (0..16).map(|input| 3 * input).collect(),
        chain: false,
        ordinary: false,
        refusing: vec![],
    };
    let (draft, _) = grow_sheet(&mut random, &plan);
    output.write_all(&draft.run_call().text)?;
    writeln!(output)?;
    for _ in 0..FRAMES {
        let lines = draft.inputs().into_iter().map(|place| draft.lines[place]);
        let mut words: Vec<u64> = lines
            .map(|line| random.inside(line.kind().expect("it is an input"), [line.p, line.q]))
            .collect();
        // One frame in eight is mostly refused.
        if random.below(8) == 0 {
            let input = random.below(words.len() as u64) as usize;
            words[input] = random.word();
        }
        output.write_all(&frame(&words))?;
        writeln!(output)?;
    }
    Ok(())
}

fn main() -> io::Result<()> {
    let mut output = BufWriter::new(io::stdout().lock());
    match std::env::args().nth(1).as_deref() {
        Some("calls") => write_calls(&mut output)?,
        Some("input") => write_input(&mut output)?,
        _ => {
            eprintln!("recipe_cases calls | input");
            std::process::exit(2);
        }
    }
    output.flush()
}
