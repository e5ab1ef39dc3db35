//! The command estrenwind as people write and read recipes with it: asm, dis, check, sheet and explain, on the built command. Runs of
//! frames are in `command/`.

mod completion;
mod documents;
mod examples;
mod golden;
mod marks;
mod mends;
mod round_trip;
mod slips;
mod statuses;

use std::ffi::OsStr;
use std::io::Write;
use std::path::{Path, PathBuf};
use std::process::{Command, Stdio};

/// What a command did.
#[derive(Debug, PartialEq, Eq)]
struct Ran {
    status: i32,
    output: String,
    errors: String,
}

/// A program in the folder that ESTRENWIND_LIB_DIR names.
fn built(name: &str) -> PathBuf {
    let folder = std::env::var_os("ESTRENWIND_LIB_DIR").map_or("../build".into(), PathBuf::from);
    let built = folder.join(name);
    built.canonicalize().unwrap_or_else(|error| {
        panic!(
            "{}: {error}. make build makes it; ESTRENWIND_LIB_DIR names its folder.",
            built.display()
        )
    })
}

/// The repository's folder.
fn repository() -> PathBuf {
    Path::new(env!("CARGO_MANIFEST_DIR")).join("..")
}

/// Runs a program with an input, in the repository's folder, so that paths in messages are the same everywhere.
fn run_program(program: &Path, arguments: &[&OsStr], input: &[u8]) -> Ran {
    let mut child = Command::new(program)
        .args(arguments)
        .current_dir(repository())
        .env_remove("NO_COLOR")
        .env("TERM", "xterm-256color")
        .stdin(Stdio::piped())
        .stdout(Stdio::piped())
        .stderr(Stdio::piped())
        .spawn()
        .unwrap();
    // Inputs here are short of what a pipe holds. A command that reads nothing closes it.
    let _ = child.stdin.take().unwrap().write_all(input);
    let done = child.wait_with_output().unwrap();
    Ran {
        status: done.status.code().expect("no signal ends it"),
        output: String::from_utf8(done.stdout).unwrap(),
        errors: String::from_utf8(done.stderr).unwrap(),
    }
}

/// The command with these arguments.
fn estrenwind(arguments: &[&str], input: impl AsRef<[u8]>) -> Ran {
    let arguments: Vec<&OsStr> = arguments.iter().map(OsStr::new).collect();
    run_program(&built("estrenwind"), &arguments, input.as_ref())
}

/// The same, which must go well and say nothing but its output.
#[track_caller]
fn output_of(arguments: &[&str], input: impl AsRef<[u8]>) -> String {
    let ran = estrenwind(arguments, input);
    assert_eq!((ran.status, ran.errors.as_str()), (0, ""), "{arguments:?}");
    ran.output
}

/// A line that goes beyond 80 columns breaks a terminal's.
#[track_caller]
fn fits_80_columns(text: &str) {
    for line in text.lines() {
        assert!(line.chars().count() <= 80, "over 80 columns: {line}");
    }
}
