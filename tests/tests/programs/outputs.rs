//! An output that takes no more: the program ends, says why, and does not read on. The reference's own
//! programs end without a word.

use crate::child::Child;
use crate::literal::{EXAMPLE, FRAME};
use crate::{Program, PROGRAMS, RUN};
use std::fs::OpenOptions;
use std::io::Read;
use std::os::unix::process::ExitStatusExt;
use std::path::Path;
use std::process::{Command, ExitStatus, Stdio};
use std::thread;
use std::time::Duration;

/// The program itself, and the program under a parent that has it ignore SIGPIPE: it ignores that signal
/// by itself, so that a write fails where the signal would else end the program.
fn starts(program: &Path) -> [Command; 2] {
    let mut ignoring = Command::new("sh");
    ignoring
        .args(["-c", "trap '' PIPE; exec \"$0\""])
        .arg(program);
    [Command::new(program), ignoring]
}

/// Frames as long as the program takes them. It has to stop by itself.
fn feed_until_it_ends(child: &mut Child) -> (ExitStatus, String) {
    let frames = format!("{FRAME}\n").repeat(4_096);
    let most = 1 << 30;
    let mut fed = 0;
    while child.offer(frames.as_bytes()) {
        fed += frames.len();
        assert!(fed < most, "the program reads on");
    }
    let (status, errors) = child.outcome();
    (status, String::from_utf8_lossy(&errors).into_owned())
}

/// The program ended by itself, and said why.
#[track_caller]
fn assert_ended(program: &Program, path: &Path, (status, errors): (ExitStatus, String), why: &str) {
    let name = path.display();
    if path == Path::new(program.reference) {
        assert!(status.code().is_some(), "{name}: {status}");
        assert_eq!(errors, "", "{name}");
    } else {
        assert_eq!(status.signal(), None, "{name}: {status}");
        assert_eq!(errors, program.cannot_write(why), "{name}");
    }
}

#[test]
fn a_reader_that_goes_away() {
    for path in RUN.paths() {
        for mut command in starts(&path) {
            let mut child = Child::spawn(command.stdout(Stdio::piped()));
            let mut output = child.take_output();
            assert!(child.offer(format!("{EXAMPLE}\n").as_bytes()));
            // Enough for a first write of 64 KiB at most, and no more than the pipes hold.
            assert!(child.offer(format!("{FRAME}\n").repeat(4_096).as_bytes()));
            let mut line = [0; 19];
            output.read_exact(&mut line).unwrap();
            assert_eq!(&line, b"02ffffffffffffffff\n");
            drop(output);
            let ended = feed_until_it_ends(&mut child);
            assert_ended(&RUN, &path, ended, "Broken pipe");
        }
    }
}

#[test]
fn a_reader_that_was_never_there() {
    for program in PROGRAMS {
        for path in program.paths() {
            for mut command in starts(&path) {
                let mut child = Child::spawn(command.stdout(Stdio::piped()));
                drop(child.take_output());
                // A program that another test is just starting has a copy of the pipe until it runs.
                thread::sleep(Duration::from_millis(50));
                child.offer(format!("{EXAMPLE}\n").as_bytes());
                let ended = feed_until_it_ends(&mut child);
                assert_ended(&program, &path, ended, "Broken pipe");
            }
        }
    }
}

#[test]
fn a_full_device() {
    for program in PROGRAMS {
        for path in program.paths() {
            let full = OpenOptions::new().write(true).open("/dev/full").unwrap();
            let mut child = Child::spawn(Command::new(&path).stdout(full));
            child.offer(format!("{EXAMPLE}\n").as_bytes());
            let ended = feed_until_it_ends(&mut child);
            assert_ended(&program, &path, ended, "No space left on device");
        }
    }
}
