//! An argument, whatever it is: a line of usage, and nothing is read or written.

use super::file_of;
use crate::child::Child;
use crate::PROGRAMS;
use std::io::Seek;
use std::process::Command;

#[test]
fn usage() {
    for program in PROGRAMS {
        for arguments in [
            &["--help"][..],
            &["-h"],
            &["--version"],
            &["--"],
            &["-"],
            &[""],
            &["recipe"],
            &["one", "two"],
        ] {
            let [input, ..] = program.inputs();
            let mut input = file_of(input);
            let mut command = Command::new(program.built());
            command.args(arguments);
            let ending = Child::start_on(&mut command, input.try_clone().unwrap()).ending();
            let case = format!("{arguments:?}");
            program.assert_ended(&case, &ending, b"", &ending.errors);
            let line = ending.errors.strip_suffix('\n').unwrap_or_default();
            assert!(line.starts_with(program.usage), "{case}: {}", ending.errors);
            assert!(!line.contains('\n'), "{case}: {}", ending.errors);
            // The two share the place up to which the file has been read.
            assert_eq!(input.stream_position().unwrap(), 0, "{case}");
        }
    }
}
