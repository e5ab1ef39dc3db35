//! A read that fails is told from the end of the input: nothing is refused for it, and a line that it
//! cuts off is not answered.

use super::{counted, file_of, redirected};
use crate::child::Child;
use crate::literal::{longest, EXAMPLE, FRAME, TURNED_DOWN};
use crate::{Program, OF_RECIPES, PROGRAMS, RUN};
use std::ffi::c_void;
use std::fs::File;
use std::io::{Seek, SeekFrom};
use std::os::fd::AsRawFd;
use std::process::Command;
use std::ptr;

const PAGE: usize = 4_096;

/// Bytes in this process's memory, and behind them a page that has none: the file that is mapped there
/// ends before it.
pub struct FailingInput {
    start: *mut c_void,
    length: usize,
    bytes: usize,
}

/// An input that gives these bytes, and then fails with EIO as a broken disk does.
pub fn failing_after(bytes: &[u8]) -> FailingInput {
    let pages = bytes.len().div_ceil(PAGE) * PAGE;
    let file = file_of([vec![0; pages - bytes.len()], bytes.to_vec()].concat());
    let length = pages + PAGE;
    // SAFETY: the system chooses a place that nobody has.
    let start = unsafe {
        mmap(
            ptr::null_mut(),
            length,
            PROT_READ,
            MAP_SHARED,
            file.as_raw_fd(),
            0,
        )
    };
    assert_ne!(start as isize, -1, "a file can be mapped");
    FailingInput {
        start,
        length,
        bytes: bytes.len(),
    }
}

impl FailingInput {
    /// The bytes as a file. It may be read as long as they are there.
    pub fn file(&self) -> File {
        let mut memory = File::open("/proc/self/mem").unwrap();
        let end = self.start as usize + self.length - PAGE;
        memory
            .seek(SeekFrom::Start((end - self.bytes) as u64))
            .unwrap();
        memory
    }
}

impl Drop for FailingInput {
    fn drop(&mut self) {
        // SAFETY: it is ours, and nothing in this process points to it.
        unsafe { munmap(self.start, self.length) };
    }
}

/// The program reads these bytes, and then a read fails. It writes this and says so.
#[track_caller]
fn check(program: &Program, bytes: &[u8], output: &[u8]) {
    let input = failing_after(bytes);
    let ending = Child::start_on(&mut Command::new(program.built()), input.file()).ending();
    let case = format!("a read fails after {} bytes", bytes.len());
    program.assert_ended(
        &case,
        &ending,
        output,
        &program.cannot_read("Input/output error"),
    );
}

#[test]
fn no_input_at_all() {
    for (redirections, why) in [
        ("<&-", "Bad file descriptor"),
        ("0>/dev/null", "Bad file descriptor"),
        ("</", "Is a directory"),
        ("<&- >&-", "Bad file descriptor"),
        ("</ >/dev/full", "Is a directory"),
    ] {
        for program in PROGRAMS {
            let ending = Child::start_command(&mut redirected(&program, redirections)).ending();
            program.assert_ended(redirections, &ending, b"", &program.cannot_read(why));
        }
    }
}

/// In the recipe, between it and the frames, in a frame, after the last one with and without its line
/// feed.
#[test]
fn after_every_byte() {
    for input in [
        format!("{EXAMPLE}\n{FRAME}\n401e000000000000\n\n{FRAME}"),
        // A recipe without inputs, and its frames.
        "04000000000000000000050000000000000000\n\n\n\n".to_string(),
    ] {
        for length in 0..=input.len() {
            let bytes = &input.as_bytes()[..length];
            check(&RUN, bytes, &RUN.before_failure(bytes));
        }
    }
    for program in OF_RECIPES {
        for recipe in [EXAMPLE, TURNED_DOWN] {
            for length in 0..=recipe.len() {
                check(&program, &recipe.as_bytes()[..length], b"");
            }
        }
    }
}

/// What would be refused if the input ended there is not, for it did not end.
#[test]
fn where_the_end_would_be_refused() {
    check(&RUN, &EXAMPLE.as_bytes()[1..], b"");
    check(&RUN, format!("{}0", longest()).as_bytes(), b"");
    check(&RUN, "0".repeat(4_993).as_bytes(), b"");
    check(&RUN, format!("{}\n", longest()).as_bytes(), b"");
    for program in OF_RECIPES {
        check(&program, &EXAMPLE.as_bytes()[1..], b"");
        check(&program, longest().as_bytes(), b"");
        check(&program, "0".repeat(4_992).as_bytes(), b"");
    }
    let line = format!("{EXAMPLE}\n{FRAME}\n{}", "0".repeat(300));
    check(&RUN, line.as_bytes(), b"02ffffffffffffffff\n");
    let line = format!("{EXAMPLE}\n{FRAME}\n{}", "0".repeat(100_000));
    check(&RUN, line.as_bytes(), b"02ffffffffffffffff\n");
}

/// Later than a first buffer, whatever its size: before, at and behind the powers of two.
#[test]
fn after_many_answers() {
    let input = counted(5_000);
    assert!(input.len() > 1 << 16);
    for power in 10..=16 {
        for length in (1 << power) - 1..=(1 << power) + 1 {
            let bytes = &input.as_bytes()[..length];
            check(&RUN, bytes, &RUN.before_failure(bytes));
        }
    }
    check(&RUN, input.as_bytes(), &RUN.whole(&input));
}

/// A recipe that has been refused is answered. No read comes after it that could fail.
#[test]
fn a_refusal_before_it_stands() {
    for (bytes, refusal) in [
        ("\n".to_string(), b"ff0a00\n"),
        (format!("{}\n", &EXAMPLE[1..]), b"ff0a00\n"),
        (
            format!("{}\n", EXAMPLE.replace("1801", "1901")),
            b"ff0c02\n",
        ),
        ("0".repeat(4_994), b"ff0a00\n"),
    ] {
        let input = failing_after(bytes.as_bytes());
        let ending = Child::start_on(&mut Command::new(RUN.built()), input.file()).ending();
        RUN.assert_ended(
            "a refused recipe, then a failing read",
            &ending,
            refusal,
            "",
        );
    }
}

const PROT_READ: i32 = 1;
const MAP_SHARED: i32 = 1;

unsafe extern "C" {
    fn mmap(
        address: *mut c_void,
        length: usize,
        protection: i32,
        flags: i32,
        file: i32,
        offset: i64,
    ) -> *mut c_void;
    fn munmap(address: *mut c_void, length: usize) -> i32;
}
