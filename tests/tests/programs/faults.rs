//! Reading or writing fails: the built programs under real faults. What was answered before a fault
//! stands, no other byte is written, and one line to standard error says that something is missing,
//! and why.
//!
//! The reference's own programs are not held to this. The exit status is not looked at, since
//! it is 0 whatever happens; but no fault may end one by a signal.

mod arguments;
mod injected;
mod reading;
mod waiting;
mod writing;

use crate::child::{Child, Ending};
use crate::literal::{longest, EXAMPLE};
use crate::{assert_same, Program, PROGRAMS, RUN};
use estrenwind_tests::reference::recipe::Way;
use reading::failing_after;
use std::ffi::{c_char, c_uint};
use std::fs::{self, File};
use std::io::{self, Seek, Write};
use std::os::fd::FromRawFd;
use std::os::unix::process::ExitStatusExt;
use std::path::Path;
use std::process::Command;

impl Program {
    /// What the program says of a read that failed.
    pub fn cannot_read(&self, why: &str) -> String {
        let (name, what) = (self.name, self.unread);
        format!("{name}: {what}: cannot read standard input: {why}\n")
    }

    /// What the program says of a write that failed.
    pub fn cannot_write(&self, why: &str) -> String {
        let (name, what) = (self.name, self.unwritten);
        format!("{name}: {what}: cannot write standard output: {why}\n")
    }

    /// An input with little to write, one with much (but of an explanation), and one with a
    /// refusal.
    fn inputs(&self) -> [String; 3] {
        match self.name {
            "run" => [counted(1), counted(20_000), EXAMPLE[1..].to_string()],
            _ => [EXAMPLE.to_string(), longest(), EXAMPLE[1..].to_string()],
        }
    }

    /// All that the program writes for this input where nothing fails.
    fn whole(&self, input: impl AsRef<[u8]>) -> Vec<u8> {
        (self.output)(Way::Short, input.as_ref())
    }

    /// What it writes where a read fails after these bytes, of a recipe that is not refused: the answers
    /// to whole lines, or no sheet, or no explanation.
    fn before_failure(&self, input: &[u8]) -> Vec<u8> {
        let has_frames = input.windows(2).any(|pair| pair == b"\n\n");
        let end = input.iter().rposition(|&byte| byte == b'\n');
        match (self.name, has_frames, end) {
            ("run", true, Some(end)) => self.whole(&input[..=end]),
            _ => Vec::new(),
        }
    }

    /// The program ended by itself, wrote this and said that.
    #[track_caller]
    pub fn assert_ended(&self, case: &str, ending: &Ending, output: &[u8], errors: &str) {
        let (name, status) = (self.name, ending.status);
        assert_eq!(status.signal(), None, "{name}, {case}: {status}");
        assert_eq!(ending.errors, errors, "{name}, {case}");
        assert_same(&self.built(), case.as_bytes(), &ending.output, output);
    }
}

/// Frames that a recipe hands on as they are. No two of its answers are the same, so that none can be
/// lost, doubled or moved unseen; some frames are refused, so that lines differ in length.
fn counted(frames: u64) -> String {
    let recipe = "02000080000000000000007fffffffffffffff\n";
    let frame = |number| match number % 7 {
        6 => "0\n".to_string(),
        _ => format!("{number:016x}\n"),
    };
    let frames: String = (0..frames).map(frame).collect();
    format!("{recipe}\n{frames}")
}

/// The built program under a shell, which knows it as "$0".
fn shell(program: &Program, script: &str) -> Command {
    let mut command = Command::new("/bin/sh");
    command.args(["-c", script]).arg(program.built());
    command
}

/// The built program, with descriptors redirected as a shell writes it.
fn redirected(program: &Program, redirections: &str) -> Command {
    shell(program, &format!("exec \"$0\" {redirections}"))
}

/// A file that is in no folder.
fn file_of(bytes: impl AsRef<[u8]>) -> File {
    // SAFETY: the name ends in a zero byte, and the descriptor is nobody else's.
    let mut file = unsafe {
        let descriptor = memfd_create(c"estrenwind-tests".as_ptr(), MFD_CLOEXEC);
        assert!(descriptor >= 0, "{}", io::Error::last_os_error());
        File::from_raw_fd(descriptor)
    };
    file.write_all(bytes.as_ref()).unwrap();
    file.rewind().unwrap();
    file
}

/// Says what the tests leave out. The harness keeps what a passing test prints to itself, but this goes
/// past it.
fn left_out(what: &str) {
    let _ = writeln!(io::stderr(), "\n{what}");
}

/// Where the line about a fault cannot be written either, nothing else is lost, and it goes nowhere
/// else.
#[test]
fn standard_error_fails_too() {
    for errors in ["2>&-", "2>/dev/full", "2</dev/null"] {
        for program in PROGRAMS {
            let [_, input, _] = program.inputs();
            let whole = program.whole(&input);
            for (redirections, output) in [
                ("", &whole[..]),
                ("</", b""),
                ("<&-", b""),
                (">&-", b""),
                (">/dev/full", b""),
                ("<&- >&-", b""),
            ] {
                let case = format!("{redirections} {errors}");
                let command = &mut redirected(&program, &case);
                let ending = Child::start_on(command, file_of(&input)).ending();
                program.assert_ended(&case, &ending, output, "");
            }
            let part = &input.as_bytes()[..input.len() - 20];
            let failing = failing_after(part);
            let command = &mut redirected(&program, errors);
            let ending = Child::start_on(command, failing.file()).ending();
            let case = format!("a read fails, {errors}");
            program.assert_ended(&case, &ending, &program.before_failure(part), "");
        }
    }
}

/// Reading and writing fail in the same run: there is one line, about either.
#[test]
fn both_fail() {
    let input = failing_after(counted(20).as_bytes());
    let command = &mut redirected(&RUN, ">/dev/full");
    let ending = Child::start_on(command, input.file()).ending();
    let errors = match ending.errors.contains("cannot read") {
        true => RUN.cannot_read("Input/output error"),
        false => RUN.cannot_write("No space left on device"),
    };
    RUN.assert_ended("both fail", &ending, b"", &errors);
}

#[test]
fn the_documents_have_the_lines() {
    let folder = Path::new(env!("CARGO_MANIFEST_DIR")).join("..");
    for program in PROGRAMS {
        let page = format!("man/{}.1", program.name);
        for document in ["docs/FORMATS.md", &page] {
            let text = fs::read_to_string(folder.join(document)).unwrap();
            let lines = [program.cannot_read(""), program.cannot_write("")];
            for line in lines.iter().map(|line| line.trim_end()) {
                assert!(text.contains(line), "{document} lacks {line}");
            }
            assert!(text.contains(program.usage), "{document}");
        }
    }
}

const MFD_CLOEXEC: c_uint = 1;

unsafe extern "C" {
    fn memfd_create(name: *const c_char, flags: c_uint) -> i32;
}
