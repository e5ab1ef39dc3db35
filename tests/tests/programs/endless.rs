//! Inputs without an end in sight: the programs answer in memory that doesn't grow.
//!
//! ESTRENWIND_ENDLESS_MIB says how long such an input is, 64 MiB where it isn't set. `make
//! test-endless` takes gigabytes.

use crate::child::Child;
use crate::literal::{longest, EXAMPLE, FRAME};
use crate::{PROGRAMS, RUN};
use std::path::Path;

const MIB: usize = 1 << 20;

/// What a program may grow by, in KiB, after its first MiB of input: code that is loaded late.
const GROWTH: u64 = 256;

/// Far above what the programs need, in KiB, and far below what they are fed.
const MOST: u64 = 16 * 1024;

fn endless() -> usize {
    match std::env::var("ESTRENWIND_ENDLESS_MIB") {
        Ok(number) => number.parse().expect("ESTRENWIND_ENDLESS_MIB is a number"),
        Err(_) => 64,
    }
}

/// What a program answers to a head, so many MiB of one MiB's bytes, and a tail.
fn answers(program: &Path, head: &[u8], mib: &[u8], count: usize, tail: &[u8]) -> Vec<u8> {
    assert_eq!(mib.len(), MIB);
    let mut child = Child::start(program).write(head);
    let mut first = None;
    for _ in 0..count {
        if !child.offer(mib) {
            break; // It has answered and reads no further.
        }
        first = first.or_else(|| child.peak());
    }
    child.offer(tail);
    if let (Some(first), Some(last)) = (first, child.peak()) {
        let name = program.display();
        assert!(
            last <= first + GROWTH && last < MOST,
            "{name}: {first} KiB, then {last} KiB"
        );
    }
    child.end()
}

#[test]
fn a_frame_line() {
    let head = format!("{EXAMPLE}\n{FRAME}\n");
    for program in RUN.paths() {
        for byte in [b'0', 0, b' '] {
            let tail = format!("\n{FRAME}\n");
            let answers = answers(
                &program,
                head.as_bytes(),
                &vec![byte; MIB],
                endless(),
                tail.as_bytes(),
            );
            assert_eq!(answers, b"02ffffffffffffffff\nff1e00\n02ffffffffffffffff\n");
        }
        let answers = answers(&program, head.as_bytes(), &[b'0'; MIB], endless(), b"");
        assert_eq!(answers, b"02ffffffffffffffff\nff1e00\n");
    }
}

#[test]
fn a_recipe() {
    for program in PROGRAMS {
        for path in program.paths() {
            for byte in [b'0', 0] {
                let answers = answers(&path, b"", &vec![byte; MIB], endless(), b"\n\n");
                assert_eq!(answers, b"ff0a00\n");
            }
            let answers = answers(&path, longest().as_bytes(), &[b'1'; MIB], endless(), b"");
            assert_eq!(answers, b"ff0a00\n");
        }
    }
}

/// A million frames of 17 bytes each, so that frames and pieces don't begin together.
#[test]
fn frames() {
    let frames = format!("{FRAME}\n").repeat(MIB);
    for program in RUN.paths() {
        let mut child = Child::start(&program).write(format!("{EXAMPLE}\n").as_bytes());
        let mut first = None;
        for piece in frames.as_bytes().chunks(MIB) {
            assert!(child.offer(piece));
            first = first.or_else(|| child.peak());
        }
        let (first, last) = (
            first.expect("it reads"),
            child.peak().expect("it waits for more"),
        );
        assert!(
            last <= first + GROWTH && last < MOST,
            "{first} KiB, then {last} KiB"
        );
        let answers = child.end();
        assert_eq!(answers.len(), 19 * MIB);
        assert!(answers
            .chunks(19)
            .all(|line| line == b"02ffffffffffffffff\n"));
    }
}

/// "A refused recipe gives one line and stops", and it is known to be refused at the 4,994th byte:
/// the program ends though its input is still open.
#[test]
fn a_refused_recipe_stops_the_program() {
    for input in [
        format!("{}00", longest()),
        format!("{}00", "0".repeat(4_992)),
        format!("{}\n", &EXAMPLE[1..]),
        "\n".to_string(),
    ] {
        for program in RUN.paths() {
            let child = Child::start(&program).write(input.as_bytes());
            assert_eq!(child.stopped(), b"ff0a00\n");
        }
    }
    for program in RUN.paths() {
        let input = format!("{}\n", EXAMPLE.replace("\n1000", "\n3200"));
        assert_eq!(
            Child::start(&program).write(input.as_bytes()).stopped(),
            b"ff0f01\n"
        );
    }
}
