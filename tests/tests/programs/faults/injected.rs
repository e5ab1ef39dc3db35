//! Errors that strace puts in the place of a system call's answer, at every call that a program makes
//! on its standard descriptors. `make faults-deps` installs strace; without it these tests are left
//! out, and say so.

use super::waiting::non_blocking;
use super::{file_of, left_out};
use crate::child::{Child, Ending};
use crate::literal::{EXAMPLE, TURNED_DOWN};
use crate::{Program, EXPLAIN, RUN, SHEET};
use std::fs;
use std::io::{Read, Seek};
use std::path::PathBuf;
use std::process::{self, Command};
use std::sync::atomic::{AtomicU32, Ordering};
use std::sync::LazyLock;
use std::thread::sleep;
use std::time::Duration;

/// One system call, as strace writes it down: `read(0, ""..., 16384) = 152`.
struct Call {
    name: String,
    /// -1 where the first operand is no number.
    descriptor: i32,
    /// -1 for an error.
    result: i64,
    injected: bool,
}

impl Call {
    fn parse(line: &str) -> Option<Call> {
        let (call, result) = line.rsplit_once(" = ")?;
        let (name, operands) = call.split_once('(')?;
        let descriptor: String = operands.chars().take_while(char::is_ascii_digit).collect();
        Some(Call {
            name: name.to_string(),
            descriptor: descriptor.parse().unwrap_or(-1),
            result: result.split_whitespace().next()?.parse().ok()?,
            injected: line.contains("(INJECTED)"),
        })
    }
}

/// What became of a program under strace.
struct Traced {
    ending: Ending,
    calls: Vec<Call>,
}

impl Traced {
    /// The places at which the program called this on that descriptor, among all its calls of that
    /// name, counted from 1 as strace counts them. The loader's calls come first.
    fn places(&self, name: &str, descriptor: i32) -> Vec<usize> {
        let calls = self.calls.iter().filter(|call| call.name == name);
        let places = calls
            .enumerate()
            .filter(|(_, call)| call.descriptor == descriptor);
        places.map(|(place, _)| place + 1).collect()
    }

    /// The bytes that went through a descriptor before strace answered for it.
    fn bytes_before(&self, name: &str, descriptor: i32) -> usize {
        let mut bytes = 0;
        for call in &self.calls {
            if (call.name.as_str(), call.descriptor) == (name, descriptor) {
                if call.injected {
                    return bytes;
                }
                bytes += usize::try_from(call.result).expect("no other call failed");
            }
        }
        panic!("strace did not answer for {name}({descriptor}, ..)");
    }
}

/// Whether strace is there, may trace, and can answer for several calls in a row.
static STRACE: LazyLock<bool> = LazyLock::new(|| {
    let output = Command::new("strace")
        .args(["-o", "/dev/null", "-e", "trace=write", "-e"])
        .args(["inject=write:error=EINTR:when=100..101", "true"])
        .output();
    let works = output.is_ok_and(|output| output.status.success());
    if !works {
        left_out("strace is missing (make faults-deps) or of no use: injected errors are left out");
    }
    works
});

/// The calls that can wait for a descriptor, or for a time.
const WAITS: &str = "poll,ppoll,select,pselect6,epoll_wait,epoll_pwait,nanosleep,clock_nanosleep";

/// The call that asks whether all has arrived in a file, at the end, and the descriptor of the output
/// that the program has opened once more for it.
const SYNC: &str = "fdatasync";
const OPENED: i32 = 3;

/// strace, set to write a program's calls to a file and to answer for some of them.
fn strace(program: &Program, injections: &[&str]) -> (Command, PathBuf) {
    static COUNT: AtomicU32 = AtomicU32::new(0);
    let count = COUNT.fetch_add(1, Ordering::Relaxed);
    let log = format!("estrenwind-strace-{}-{count}", process::id());
    let log = std::env::temp_dir().join(log);
    let mut command = Command::new("strace");
    command.arg("-o").arg(&log).args(["-s", "0", "-e"]);
    command.arg(format!("trace=read,write,{SYNC},{WAITS}"));
    for injection in injections {
        command.args(["-e", &format!("inject={injection}")]);
    }
    command.arg(program.built());
    (command, log)
}

/// The program under such a command, its input in these pieces. Each is taken before the next one comes,
/// and the program is left alone for a while before the input ends.
fn traced((mut command, log): (Command, PathBuf), pieces: &[&str], pause: Duration) -> Traced {
    taken(Child::start_command(&mut command), log, pieces, pause)
}

fn taken(mut child: Child, log: PathBuf, pieces: &[&str], pause: Duration) -> Traced {
    for piece in pieces {
        child.offer(piece.as_bytes());
        child.wait_until_taken();
    }
    sleep(pause);
    let ending = child.ending();
    let text = fs::read_to_string(&log).unwrap();
    fs::remove_file(&log).unwrap();
    Traced {
        ending,
        calls: text.lines().filter_map(Call::parse).collect(),
    }
}

/// A program and its input in pieces.
struct Case {
    program: Program,
    pieces: Vec<&'static str>,
}

impl Case {
    fn input(&self) -> String {
        self.pieces.concat()
    }

    fn whole(&self) -> Vec<u8> {
        self.program.whole(self.input())
    }

    /// With strace answering for some calls.
    fn with(&self, injections: &[&str]) -> Traced {
        traced(
            strace(&self.program, injections),
            &self.pieces,
            Duration::ZERO,
        )
    }

    /// The same with a file for the output: nothing else is synced.
    fn with_file(&self, injections: &[&str]) -> Traced {
        let mut file = file_of("");
        let (mut command, log) = strace(&self.program, injections);
        let child = Child::spawn(command.stdout(file.try_clone().unwrap()));
        let mut traced = taken(child, log, &self.pieces, Duration::ZERO);
        file.rewind().unwrap();
        file.read_to_end(&mut traced.ending.output).unwrap();
        traced
    }

    /// strace answered for that call, and the output is whole and nothing was said.
    fn assert_unharmed(&self, name: &str, descriptor: i32, injection: &str, traced: &Traced) {
        traced.bytes_before(name, descriptor);
        self.program
            .assert_ended(injection, &traced.ending, &self.whole(), "");
    }

    /// With strace answering so for one call after the other of this name on that descriptor.
    fn with_each(&self, name: &str, descriptor: i32, answer: &str) -> Vec<(String, Traced)> {
        let with = match name {
            SYNC => Case::with_file as fn(&Case, &[&str]) -> Traced,
            _ => Case::with,
        };
        let places = with(self, &[]).places(name, descriptor);
        assert!(
            !places.is_empty(),
            "{} never calls {name} on {descriptor}, so that it cannot see its error",
            self.program.name
        );
        let injections = places
            .iter()
            .map(|place| format!("{name}:{answer}:when={place}"));
        injections
            .map(|injection| (injection.clone(), with(self, &[&injection])))
            .collect()
    }
}

/// Pieces that end in the recipe, before and after the empty line, in a frame, at the end of one, and
/// without a line feed. No case where there is no strace.
fn cases() -> Vec<Case> {
    if !*STRACE {
        return Vec::new();
    }
    let run = vec![
        "0200008000000000",
        "0000007fffffffffffffff\n",
        "\n",
        "0000000000000001\n0000000000000002\n00000000",
        "00000003\n0\n0000000000000005\n",
        "0000000000000006",
    ];
    let cut = |recipe: &'static str| vec![&recipe[..20], &recipe[20..78], &recipe[78..]];
    vec![
        Case {
            program: RUN,
            pieces: run,
        },
        Case {
            program: SHEET,
            pieces: cut(EXAMPLE),
        },
        Case {
            program: EXPLAIN,
            pieces: cut(TURNED_DOWN),
        },
    ]
}

/// No error at all: the tests below stand on what strace shows of it.
#[test]
fn nothing_fails() {
    for case in cases() {
        let traced = case.with(&[]);
        case.program
            .assert_ended("nothing fails", &traced.ending, &case.whole(), "");
        let reads = traced.places("read", 0);
        assert!(reads.len() > case.pieces.len(), "{} reads", reads.len());
    }
}

#[test]
fn a_read_fails() {
    for case in cases() {
        let errors = case.program.cannot_read("Input/output error");
        for (injection, traced) in case.with_each("read", 0, "error=EIO") {
            let taken = traced.bytes_before("read", 0);
            let output = case
                .program
                .before_failure(&case.input().as_bytes()[..taken]);
            case.program
                .assert_ended(&injection, &traced.ending, &output, &errors);
        }
    }
}

#[test]
fn a_write_fails() {
    for case in cases() {
        for (error, why) in [
            ("ENOSPC", "No space left on device"),
            ("EDQUOT", "Disk quota exceeded"),
        ] {
            let errors = case.program.cannot_write(why);
            for (injection, traced) in case.with_each("write", 1, &format!("error={error}")) {
                let output = &case.whole()[..traced.bytes_before("write", 1)];
                case.program
                    .assert_ended(&injection, &traced.ending, output, &errors);
            }
        }
    }
}

/// As on network file systems, which may keep an error until then. The program asks for it by a sync.
#[test]
fn closing_the_output_fails() {
    for case in cases() {
        for (error, why) in [
            ("EIO", "Input/output error"),
            ("ENOSPC", "No space left on device"),
        ] {
            let errors = case.program.cannot_write(why);
            for (injection, traced) in case.with_each(SYNC, OPENED, &format!("error={error}")) {
                case.program
                    .assert_ended(&injection, &traced.ending, &case.whole(), &errors);
            }
        }
    }
}

/// What is no failure of the output: the file is none that can be synced.
#[test]
fn an_output_that_is_never_synced() {
    for case in cases() {
        for error in ["EINVAL", "EROFS", "ENOSYS", "EOPNOTSUPP"] {
            for (injection, traced) in case.with_each(SYNC, OPENED, &format!("error={error}")) {
                case.assert_unharmed(SYNC, OPENED, &injection, &traced);
            }
        }
    }
}

/// Interrupted, or not ready: the program calls again, or waits and calls again.
#[test]
fn calls_to_be_repeated() {
    for case in cases() {
        for (name, descriptor, error) in [
            ("read", 0, "EINTR"),
            ("read", 0, "EAGAIN"),
            ("write", 1, "EINTR"),
            ("write", 1, "EAGAIN"),
            (SYNC, OPENED, "EINTR"),
        ] {
            for (injection, traced) in case.with_each(name, descriptor, &format!("error={error}")) {
                case.assert_unharmed(name, descriptor, &injection, &traced);
            }
        }
    }
}

/// Many in a row, at the first call.
#[test]
fn calls_to_be_repeated_often() {
    for case in cases() {
        let plain = case.with(&[]);
        for (name, descriptor) in [("read", 0), ("write", 1)] {
            let first = plain.places(name, descriptor)[0];
            for error in ["EINTR", "EAGAIN"] {
                let injection = format!("{name}:error={error}:when={first}..{}", first + 20);
                let traced = case.with(&[&injection]);
                case.assert_unharmed(name, descriptor, &injection, &traced);
            }
        }
    }
}

/// A write that takes a part of the bytes: the others are written, and none of the first again. strace
/// says that it took some and drops the write, so that exactly these are missing.
#[test]
fn a_write_takes_a_part() {
    for case in cases() {
        for part in [1, 5] {
            for (injection, traced) in case.with_each("write", 1, &format!("retval={part}")) {
                let mut output = case.whole();
                let before = traced.bytes_before("write", 1);
                output.drain(before..before + part);
                case.program
                    .assert_ended(&injection, &traced.ending, &output, "");
            }
        }
    }
}

/// The wait for an input that is not ready is itself interrupted.
#[test]
fn waiting_is_interrupted() {
    for case in cases() {
        let (command, log) = strace(&case.program, &[&format!("{WAITS}:error=EINTR:when=1")]);
        let command = non_blocking(command, &[0]);
        let traced = traced((command, log), &case.pieces, Duration::from_millis(200));
        let waits = traced.calls.iter().filter(|call| call.injected).count();
        assert!(
            waits > 0,
            "{} waits in a way that strace was not told of",
            case.program.name
        );
        case.program
            .assert_ended("an interrupted wait", &traced.ending, &case.whole(), "");
    }
}
