//! A write that fails: what stands is the beginning of the right output. Readers that go away are in
//! ../outputs.rs.

use super::{counted, file_of, left_out, redirected, shell};
use crate::child::Child;
use crate::{EXPLAIN, PROGRAMS, RUN, SHEET};
use std::io::{Read, Seek};
use std::process::Command;

#[test]
fn no_output_at_all() {
    for (redirections, why) in [
        (">&-", "Bad file descriptor"),
        ("1</dev/null", "Bad file descriptor"),
        (">/dev/full", "No space left on device"),
    ] {
        for program in PROGRAMS {
            for input in program.inputs() {
                let command = &mut redirected(&program, redirections);
                let ending = Child::start_on(command, file_of(&input)).ending();
                let case = format!("{redirections}, {} bytes of input", input.len());
                program.assert_ended(&case, &ending, b"", &program.cannot_write(why));
            }
        }
    }
}

/// A file takes as much as the limit allows, also of one write, and then no more.
#[test]
fn a_limit_on_the_size_of_files() {
    for (program, blocks) in [
        (RUN, 1),
        (RUN, 64),
        (RUN, 301),
        (SHEET, 1),
        (SHEET, 9),
        (EXPLAIN, 0),
    ] {
        let [_, input, _] = program.inputs();
        let most = blocks * 512;
        let script = format!("trap '' XFSZ; ulimit -f {blocks}; exec \"$0\"");
        let mut file = file_of("");
        let mut command = shell(&program, &script);
        command.stdout(file.try_clone().unwrap());
        let mut ending = Child::spawn_on(&mut command, file_of(&input)).ending();
        file.rewind().unwrap();
        file.read_to_end(&mut ending.output).unwrap();
        let whole = program.whole(&input);
        assert!(whole.len() > most);
        let case = format!("a limit of {blocks} blocks");
        let errors = program.cannot_write("File too large");
        program.assert_ended(&case, &ending, &whole[..most], &errors);
    }
}

/// A shell on a file system of 64 KiB, "$1", which nobody else sees and which is gone when the shell has
/// ended. It covers the tests' own folder.
fn on_a_small_file_system(options: &[&str], script: &str) -> Command {
    let mount = "mount -t tmpfs -o size=64k tmpfs \"$1\"";
    let mut command = Command::new("unshare");
    command.args(options).args(["--mount", "/bin/sh", "-c"]);
    command.arg(format!("{mount} && {script}")).arg(RUN.built());
    command.arg(env!("CARGO_TARGET_TMPDIR"));
    command
}

#[test]
fn a_full_file_system() {
    // Whoever is not root is, in a name space of users, where the system allows it.
    let can_be_mounted = |options: &&&[&str]| {
        let output = on_a_small_file_system(options, "exit 0").output();
        output.is_ok_and(|output| output.status.success())
    };
    let ways: [&[&str]; 2] = [&[], &["--map-root-user"]];
    let Some(options) = ways.iter().find(can_be_mounted) else {
        left_out("a small file system cannot be mounted: writing to a full one is left out");
        return;
    };
    let input = counted(20_000);
    let whole = RUN.whole(&input);
    let script = "{ \"$0\" >\"$1/answers\"; cat \"$1/answers\"; }";
    let mut command = on_a_small_file_system(options, script);
    let ending = Child::start_on(&mut command, file_of(&input)).ending();
    let written = ending.output.len();
    assert!((1 << 15..=1 << 16).contains(&written), "{written} bytes");
    let errors = RUN.cannot_write("No space left on device");
    RUN.assert_ended("64 KiB", &ending, &whole[..written], &errors);
}
