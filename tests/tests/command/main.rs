//! The built command `estrenwind`: its `run` and `join` beside the program `run` and the reference, byte
//! for byte; what it says, and what it leaves behind where something fails.
//!
//! It stands beside the programs, in the folder that ESTRENWIND_LIB_DIR names; ESTRENWIND_COMMAND names
//! another one.

#[path = "../programs/child.rs"]
#[allow(dead_code)]
mod child;
mod counts;
mod farm;
mod faults;
mod folder;
mod injected;
mod running;
mod shards;
mod soon;
mod terminal;
mod tracing;

use child::{Child, Ending};
use std::env;
use std::ffi::OsStr;
use std::fs::File;
use std::io::{self, Write};
use std::path::{Path, PathBuf};
use std::process::Command;

/// What is built, by its name.
fn built(name: &str) -> PathBuf {
    let folder = env::var_os("ESTRENWIND_LIB_DIR").map_or("../build".into(), PathBuf::from);
    let path = folder.join(name);
    path.canonicalize().unwrap_or_else(|error| {
        panic!(
            "{}: {error}. Build it first, or name its folder in ESTRENWIND_LIB_DIR.",
            path.display()
        )
    })
}

/// The command itself.
fn estrenwind() -> PathBuf {
    env::var_os("ESTRENWIND_COMMAND").map_or_else(|| built("estrenwind"), PathBuf::from)
}

/// The command with these words after its name.
fn command<W: AsRef<OsStr>>(words: impl IntoIterator<Item = W>) -> Command {
    let mut command = Command::new(estrenwind());
    command.args(words);
    command
}

/// How `estrenwind run` ends on frames from a file, with these options.
fn run_file(recipe: &Path, frames: &Path, options: &[&str]) -> Ending {
    let mut command = command(["run"]);
    command.args(options).arg(recipe).arg(frames);
    Child::start_on(&mut command, File::open("/dev/null").unwrap()).ending()
}

/// How it ends on frames from standard input.
fn run_input(recipe: &Path, frames: &[u8], options: &[&str]) -> Ending {
    let mut command = command(["run"]);
    command.args(options).arg(recipe);
    Child::start_command(&mut command).write(frames).ending()
}

/// A whole number as it is, so that no two answers need be the same.
const IDENTITY: &str = "02000080000000000000007fffffffffffffff\n";

/// Frames for it. No two answers are the same but for refusals, so that none can be lost, doubled or moved
/// unseen; some frames are refused, so that lines differ in length.
fn counted(frames: u64) -> String {
    let frame = |number| match number % 7 {
        6 => "0\n".to_string(),
        _ => format!("{number:016x}\n"),
    };
    (0..frames).map(frame).collect()
}

/// The answers to them.
fn counted_answers(frames: u64) -> String {
    let answer = |number| match number % 7 {
        6 => "ff1e00\n".to_string(),
        _ => format!("02{number:016x}\n"),
    };
    (0..frames).map(answer).collect()
}

#[track_caller]
fn assert_same(case: &str, output: &[u8], expected: &[u8]) {
    if output == expected {
        return;
    }
    let same = output.iter().zip(expected);
    let same = same.take_while(|(x, y)| x == y).count();
    let rest = |bytes: &[u8]| {
        let end = bytes.len().min(same + 60);
        bytes[same..end].escape_ascii().to_string()
    };
    panic!(
        "{case}: differs from byte {same} of {} on: {}\nexpected, of {}: {}",
        output.len(),
        rest(output),
        expected.len(),
        rest(expected)
    );
}

/// Says what the tests leave out. The harness keeps what a passing test prints to itself, but this goes
/// past it.
fn left_out(what: &str) {
    let _ = writeln!(io::stderr(), "\n{what}");
}
