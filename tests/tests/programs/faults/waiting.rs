//! Descriptors that are not ready and say so (EAGAIN) instead of having the program wait: it waits by
//! itself, without work, and nothing is lost.

use super::{counted, shell};
use crate::child::Child;
use crate::literal::longest;
use crate::{Program, EXPLAIN, RUN, SHEET};
use std::io::{self, Read};
use std::os::unix::process::CommandExt;
use std::process::{ChildStdout, Command, Stdio};
use std::thread::sleep;
use std::time::Duration;

const SHORT: Duration = Duration::from_millis(2);
const LONG: Duration = Duration::from_millis(300);

/// How long a program is left waiting, and the most of that time that it may work.
const WAIT: Duration = Duration::from_secs(1);
const MOST_WORK: f64 = 0.3;

const INPUT: i32 = 0;
const OUTPUT: i32 = 1;

const SIGCONT: i32 = 18;
const SIGSTOP: i32 = 19;

/// A page of memory, and the least that a pipe holds.
const PAGE: usize = 4_096;

/// The command with these descriptors non-blocking. Its output is a pipe of one page, which is soon
/// full.
pub fn non_blocking(mut command: Command, descriptors: &'static [i32]) -> Command {
    let prepare = move || {
        for &descriptor in descriptors {
            // SAFETY: fcntl touches no memory, and may be called between fork and exec.
            let status = unsafe { fcntl(descriptor, F_SETFL, O_NONBLOCK) };
            if status == -1 {
                return Err(io::Error::last_os_error());
            }
        }
        // SAFETY: as above.
        match unsafe { fcntl(OUTPUT, F_SETPIPE_SZ, PAGE as i32) } {
            -1 => Err(io::Error::last_os_error()),
            _ => Ok(()),
        }
    };
    // SAFETY: it calls nothing but fcntl.
    unsafe { command.pre_exec(prepare) };
    command.stdout(Stdio::piped());
    command
}

fn started(program: &Program, descriptors: &'static [i32]) -> Child {
    Child::spawn(&mut non_blocking(
        Command::new(program.built()),
        descriptors,
    ))
}

/// An input for each program. It fits a pipe, so that nobody waits to write it.
fn cases() -> [(Program, String); 3] {
    let frames = counted(3_500);
    assert!(frames.len() < 1 << 16);
    [(RUN, frames), (SHEET, longest()), (EXPLAIN, longest())]
}

/// Those with an output that does not fit a page, so that the program waits for its reader: the
/// line of an explanation always does.
fn cases_with_long_output() -> impl Iterator<Item = (Program, String)> {
    let is_long = |(program, input): &(Program, String)| program.whole(input).len() > PAGE;
    cases().into_iter().filter(is_long)
}

/// A reader that waits before it begins, and after each piece.
struct SlowReader {
    output: ChildStdout,
    turn: usize,
}

impl Read for SlowReader {
    fn read(&mut self, bytes: &mut [u8]) -> io::Result<usize> {
        sleep(if self.turn == 0 { LONG } else { SHORT });
        let sizes = [1, 4_096, 7, 3_000, 1_000, 4_095];
        let most = bytes.len().min(sizes[self.turn % sizes.len()]);
        self.turn += 1;
        self.output.read(&mut bytes[..most])
    }
}

fn write_slowly(child: &mut Child, input: &str) {
    let mut rest = input.as_bytes();
    sleep(LONG);
    for size in [1, 40, 3, 1_000, 17, 8, 5_000, 4_096, 9_999]
        .into_iter()
        .cycle()
    {
        let (piece, later) = rest.split_at(rest.len().min(size));
        assert!(child.offer(piece), "the program ends before its input");
        sleep(SHORT);
        rest = later;
        if rest.is_empty() {
            return;
        }
    }
}

#[track_caller]
fn assert_whole(program: &Program, case: &str, child: Child, input: &str) {
    let ending = child.ending();
    program.assert_ended(case, &ending, &program.whole(input), "");
}

#[test]
fn a_slow_writer() {
    for (program, input) in cases() {
        let mut child = started(&program, &[INPUT]);
        child.collect_through(|output| output);
        write_slowly(&mut child, &input);
        assert_whole(&program, "a slow writer", child, &input);
    }
}

#[test]
fn a_slow_reader() {
    for (program, input) in cases() {
        let mut child = started(&program, &[OUTPUT]);
        child.collect_through(|output| SlowReader { output, turn: 0 });
        assert!(child.offer(input.as_bytes()));
        assert_whole(&program, "a slow reader", child, &input);
    }
}

#[test]
fn both_slow() {
    for (program, input) in cases() {
        let mut child = started(&program, &[INPUT, OUTPUT]);
        child.collect_through(|output| SlowReader { output, turn: 0 });
        write_slowly(&mut child, &input);
        assert_whole(&program, "both slow", child, &input);
    }
}

/// A program that waits, for the rest of its input or for its reader.
struct Waiting {
    program: Program,
    input: String,
    child: Child,
    for_input: bool,
}

fn waiting() -> Vec<Waiting> {
    let for_input = cases().into_iter().map(|(program, input)| {
        let mut child = started(&program, &[INPUT]);
        child.collect_through(|output| output);
        assert!(child.offer(&input.as_bytes()[..1_000]));
        Waiting {
            program,
            input,
            child,
            for_input: true,
        }
    });
    let for_reader = cases_with_long_output().map(|(program, input)| {
        let mut child = started(&program, &[OUTPUT]);
        assert!(child.offer(input.as_bytes()));
        child.end_input();
        Waiting {
            program,
            input,
            child,
            for_input: false,
        }
    });
    for_input.chain(for_reader).collect()
}

impl Waiting {
    /// What it waits for comes, and all is there.
    fn go_on(mut self) {
        if self.for_input {
            assert!(self.child.offer(&self.input.as_bytes()[1_000..]));
        } else {
            self.child.collect_through(|output| output);
        }
        assert_whole(&self.program, "after a wait", self.child, &self.input);
    }
}

/// Neither by its processor time, nor by how often it is found running or ready to run: on a busy machine
/// a program that works without a pause gets little time.
#[test]
fn waiting_is_no_work() {
    let waiting = waiting();
    let looks = 100;
    let mut working = vec![0; waiting.len()];
    for _ in 0..looks {
        sleep(WAIT / looks);
        for (count, Waiting { child, .. }) in working.iter_mut().zip(&waiting) {
            let (_, works) = child.work();
            *count += u32::from(works);
        }
    }
    for (count, waiting) in working.iter().zip(&waiting) {
        let (time, _) = waiting.child.work();
        let case = format!(
            "{} waits, for its input: {}. It works at {count} of {looks} looks, {time:?} in all",
            waiting.program.name, waiting.for_input
        );
        assert!(time < WAIT.mul_f64(MOST_WORK), "{case}");
        assert!(f64::from(*count) < MOST_WORK * f64::from(looks), "{case}");
    }
    waiting.into_iter().for_each(Waiting::go_on);
}

/// As a shell does it with Ctrl-Z and fg.
#[test]
fn stopped_and_continued() {
    let mut waiting = waiting();
    for signal in [SIGSTOP, SIGCONT, SIGSTOP, SIGCONT] {
        sleep(LONG / 4);
        for Waiting { child, .. } in &mut waiting {
            child.signal(signal);
        }
    }
    waiting.into_iter().for_each(Waiting::go_on);
}

/// No room will ever come: the program does not wait for it.
#[test]
fn the_reader_goes_away() {
    for (program, input) in cases_with_long_output() {
        for ignored in [false, true] {
            let script = match ignored {
                false => "exec \"$0\"",
                true => "trap '' PIPE; exec \"$0\"",
            };
            let mut child = Child::spawn(&mut non_blocking(shell(&program, script), &[OUTPUT]));
            let output = child.take_output();
            assert!(child.offer(input.as_bytes()));
            child.end_input();
            sleep(LONG / 3);
            drop(output);
            let ending = child.ending();
            let errors = program.cannot_write("Broken pipe");
            program.assert_ended("the reader goes away", &ending, b"", &errors);
        }
    }
}

const F_SETFL: i32 = 4;
const F_SETPIPE_SZ: i32 = 1031;
const O_NONBLOCK: i32 = 0o4000;

unsafe extern "C" {
    fn fcntl(descriptor: i32, command: i32, ...) -> i32;
}
