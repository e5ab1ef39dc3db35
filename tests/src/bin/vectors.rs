//! Prints the cases of `vectors/` for a program to read (`stdin`), or the answers that it has to
//! give (`stdout`).

use estrenwind_tests::vectors::{cases, Case};
use std::env;
use std::io::{self, Write};
use std::process::ExitCode;

fn main() -> ExitCode {
    let line = match env::args().nth(1).as_deref() {
        Some("stdin") => Case::input_line,
        Some("stdout") => Case::output_line,
        _ => {
            eprintln!("usage: vectors stdin|stdout");
            return ExitCode::FAILURE;
        }
    };
    let lines: String = cases().iter().map(line).collect();
    match io::stdout().write_all(lines.as_bytes()) {
        Ok(()) => ExitCode::SUCCESS,
        Err(error) => {
            eprintln!("vectors: {error}");
            ExitCode::FAILURE
        }
    }
}
