//! A small stack: the programs keep their buffers on it, and little else.

use crate::child::{Child, Ending};
use crate::literal::{longest, EXAMPLE, FRAME, TURNED_DOWN};
use crate::{Program, OF_RECIPES, PROGRAMS, RUN};
use estrenwind_tests::reference::recipe::Way;
use std::process::Command;

/// How the program ends on this input in so many KiB of stack. Its environment, which would take a part of
/// them, is empty. The system starts a stack anywhere in its first 8 KiB, hence the turns.
fn endings(program: &Program, kib: u32, redirections: &str, input: &[u8]) -> Vec<Ending> {
    let script = format!("ulimit -s {kib} && exec \"$0\" {redirections}");
    let ending = |_| {
        let mut command = Command::new("/bin/sh");
        command.env_clear().args(["-c", &script]);
        command.arg(program.built());
        Child::start_command(&mut command).write(input).ending()
    };
    (0..20).map(ending).collect()
}

fn check(program: &Program, kib: u32, input: &[u8]) {
    let expected = (program.output)(Way::Short, input);
    for ending in endings(program, kib, "", input) {
        program.assert_ended(&format!("{kib} KiB of stack"), &ending, &expected, "");
    }
}

fn recipes() -> [String; 4] {
    let [example, turned_down] = [EXAMPLE, TURNED_DOWN].map(str::to_string);
    [example, turned_down, longest(), "0\n".to_string()]
}

#[test]
fn run_in_48_kib() {
    let frames = format!("{FRAME}\n401e000000000000\n{}\n{FRAME}\n", "0".repeat(300));
    for recipe in recipes() {
        check(&RUN, 48, format!("{recipe}\n{frames}").as_bytes());
    }
}

#[test]
fn sheet_and_explain_in_32_kib() {
    for program in OF_RECIPES {
        for recipe in recipes() {
            check(&program, 32, recipe.as_bytes());
        }
    }
}

/// The line about a fault is put together in the same stack.
#[test]
fn faults_in_48_kib() {
    for program in PROGRAMS {
        for (redirections, errors) in [
            ("</", program.cannot_read("Is a directory")),
            (
                ">/dev/full",
                program.cannot_write("No space left on device"),
            ),
        ] {
            let input = format!("{}\n{FRAME}\n", longest());
            let input = match program.name {
                "run" => input.as_bytes(),
                _ => &input.as_bytes()[..4_992],
            };
            for ending in endings(&program, 48, redirections, input) {
                program.assert_ended(redirections, &ending, b"", &errors);
            }
        }
    }
}
