//! The command `estrenwind`: recipes as people write and read them, over the proved library.
//!
//! It computes nothing itself. Every sheet, every explanation and every answer to a frame is the library's.

mod arguments;
mod assemble;
mod check;
mod colour;
mod decimal;
mod diagnostic;
mod disassemble;
mod explain;
mod failure;
mod frames;
mod help;
mod join;
mod json;
mod mend;
mod number;
mod output;
mod part;
mod progress;
mod recipe;
mod recipe_file;
mod run;
mod shard;
mod sheet;
mod slips;
mod source;
mod system;
mod table;
mod tally;
mod trace;

use arguments::Command;
use failure::{Failure, Status};
use output::Output;
use sheet::Shown;
use std::env;
use std::io::{self, Write};
use std::path::{Path, PathBuf};
use std::process::ExitCode;

fn main() -> ExitCode {
    match arguments::read(env::args_os().skip(1)).and_then(obey) {
        Ok(status) => status.into(),
        Err(failure) => {
            tell(&failure);
            failure.status()
        }
    }
}

/// Says a failure on standard error. Where that is not there either, the status is all that is left.
fn tell(failure: &Failure) {
    let text = match failure {
        Failure::Usage(text) => format!("estrenwind: {text}\nestrenwind help has the commands, estrenwind help COMMAND their options\n"),
        Failure::Refused(text) => text.clone(),
        Failure::Files(text) => format!("estrenwind: {text}\n"),
    };
    say(&text);
}

fn say(text: &str) {
    let _ = io::stderr().write_all(text.as_bytes());
}

fn obey(command: Command) -> Result<Status, Failure> {
    match command {
        Command::Check(files) => check_all(&files),
        Command::Sheet(file, form) => show(sheet::sheet(&recipe_file::open(&file)?, form)),
        Command::Explain(file) => show(explain::explain(&recipe_file::open(&file)?)),
        Command::Run(file, options) => run::run(&recipe_file::open(&file)?, &options),
        Command::Join(parts, output) => join::join(&parts, output.as_deref()),
        Command::Assemble(file, output) => {
            write(output.as_deref(), &recipe_file::open(&file)?.text)
        }
        Command::Disassemble(file, output) => {
            let text = disassemble::disassemble(&recipe_file::open(&file)?);
            write(output.as_deref(), text.as_bytes())
        }
        Command::Help(text) => write(None, text.as_bytes()),
        Command::Version => write(
            None,
            format!("estrenwind {}\n", estrenwind::VERSION).as_bytes(),
        ),
    }
}

fn write(path: Option<&Path>, bytes: &[u8]) -> Result<Status, Failure> {
    let mut output = Output::open(path)?;
    output.write(bytes)?;
    output.finish()?;
    Ok(Status::Well)
}

fn show(shown: Shown) -> Result<Status, Failure> {
    // Where there is nothing to write, an output that cannot be written takes nothing from what there is to say.
    if !shown.output.is_empty() {
        write(None, shown.output.as_bytes())?;
    }
    say(&shown.message);
    Ok(shown.status)
}

/// Each recipe is told about, whatever became of those before. Files that cannot be read count for more than recipes that are refused.
fn check_all(files: &[PathBuf]) -> Result<Status, Failure> {
    let mut status = Status::Well;
    let mut unread = None;
    for file in files {
        match recipe_file::open(file) {
            Ok(recipe) => {
                let shown = show(check::check(&recipe))?;
                if shown != Status::Well {
                    status = shown;
                }
            }
            Err(failure @ Failure::Files(_)) => {
                if let Some(before) = unread.replace(failure) {
                    tell(&before);
                }
            }
            Err(failure) => {
                tell(&failure);
                status = Status::RecipeRefused;
            }
        }
    }
    unread.map_or(Ok(status), Err)
}
