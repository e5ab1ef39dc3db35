//! Errors that strace puts in the place of a system call's answer. `make faults-deps` installs strace; without it
//! these tests are left out, and say so.

use crate::child::Ending;
use crate::faults::{assert_failed, ended, folder};
use crate::folder::Folder;
use crate::{assert_same, counted_answers, estrenwind, left_out};
use std::fs;
use std::process::Command;
use std::sync::LazyLock;

/// Whether strace is there and may trace.
static STRACE: LazyLock<bool> = LazyLock::new(|| {
    let output = Command::new("strace")
        .args(["-o", "/dev/null", "-e", "inject=fsync:error=EIO", "true"])
        .output();
    let works = output.is_ok_and(|output| output.status.success());
    if !works {
        left_out("strace is missing (make faults-deps) or of no use: injected errors are left out");
    }
    works
});

/// `estrenwind run recipe frames` and these words, under strace with these options. The calls are in the file `log`
/// then.
fn traced(folder: &Folder, options: &[&str], words: &[&str]) -> Ending {
    let mut command = Command::new("strace");
    command.args(["-o", "log"]).args(options).arg(estrenwind());
    command.args(["run", "recipe", "frames"]).args(words);
    let ending = ended(command.current_dir(folder.path()));
    fs::rename(folder.file("log"), folder.path().with_extension("log")).unwrap();
    ending
}

/// The calls of the last run.
fn calls(folder: &Folder) -> String {
    let path = folder.path().with_extension("log");
    let calls = fs::read_to_string(&path).unwrap();
    fs::remove_file(path).unwrap();
    calls
}

/// The bytes that calls of read gave.
fn bytes_read(calls: &str) -> usize {
    let reads = calls.lines().filter(|line| line.starts_with("read("));
    let results = reads.filter_map(|line| line.rsplit_once(" = "));
    results
        .filter_map(|(_, result)| result.parse::<usize>().ok())
        .sum()
}

/// strace answered for some call, and all answers are there.
#[track_caller]
fn assert_unharmed(folder: &Folder, injection: &str, ending: &Ending) {
    let calls = calls(folder);
    assert!(calls.contains("(INJECTED)"), "{injection}: {calls}");
    let answers = counted_answers(20_000);
    assert_same(injection, &ending.output, answers.as_bytes());
    let code = ending.status.code();
    assert_eq!(code, Some(1), "{injection}: {}", ending.errors);
}

#[test]
fn writing_fails() {
    if !*STRACE {
        return;
    }
    let folder = folder(20_000);
    for injection in [
        "inject=fsync:error=EIO:when=1",
        "inject=rename:error=EIO",
        "inject=write:error=EIO:when=1",
        "inject=write:error=EIO:when=3",
    ] {
        let ending = traced(&folder, &["-e", injection], &["-o", "out"]);
        calls(&folder);
        let line = "cannot write out: Input/output error: out is as it was";
        assert_failed(&folder, injection, &ending, line);
    }
    let bits = "inject=fchmod:error=EPERM";
    let ending = traced(&folder, &["-e", bits], &["-o", "out"]);
    calls(&folder);
    let line = "cannot write out: Operation not permitted";
    assert_failed(&folder, bits, &ending, line);
    // The output is there by then, and the line says what is not known of it.
    let late = "inject=fsync:error=EIO:when=2";
    let ending = traced(&folder, &["-e", late], &["-o", "out"]);
    calls(&folder);
    let line = "estrenwind: out is written, but may not outlast a crash: cannot sync its folder: Input/output error\n";
    assert_eq!(
        (ending.errors.as_str(), ending.status.code()),
        (line, Some(74))
    );
    let answers = counted_answers(20_000);
    assert_same("out", &folder.read("out"), answers.as_bytes());
}

/// Only calls on the frames are answered for.
#[test]
fn reading_fails() {
    if !*STRACE {
        return;
    }
    let folder = folder(20_000);
    let frames = folder.file("frames").display().to_string();
    for place in [1, 2, 4] {
        let injection = format!("inject=read:error=EIO:when={place}");
        let options = ["-P", &frames, "-e", &injection];
        let ending = traced(&folder, &options, &[]);
        // The answers to the lines that were read whole.
        let read = bytes_read(&calls(&folder));
        let feeds = folder.read("frames")[..read].to_vec();
        let lines = feeds.iter().filter(|&&byte| byte == b'\n').count();
        assert_eq!(lines == 0, place == 1);
        let answers = counted_answers(lines as u64);
        assert_same(&injection, &ending.output, answers.as_bytes());
        let line = "answers are incomplete: cannot read frames: Input/output error";
        assert_failed(&folder, &injection, &ending, line);
        let ending = traced(&folder, &options, &["-o", "out"]);
        calls(&folder);
        let line = "cannot read frames: Input/output error: out is as it was";
        assert_failed(&folder, &injection, &ending, line);
    }
}

/// Interrupted, or not ready: the command calls again, or waits and calls again.
#[test]
fn calls_to_be_repeated() {
    if !*STRACE {
        return;
    }
    let folder = folder(20_000);
    let frames = folder.file("frames").display().to_string();
    for error in ["EINTR", "EAGAIN"] {
        for places in ["1", "2", "1..20"] {
            let injection = format!("inject=read:error={error}:when={places}");
            let options = ["-P", &frames, "-e", &injection];
            let ending = traced(&folder, &options, &[]);
            assert_unharmed(&folder, &injection, &ending);
            let injection = format!("inject=write:error={error}:when={places}");
            let ending = traced(&folder, &["-e", &injection], &[]);
            assert_unharmed(&folder, &injection, &ending);
        }
    }
}

/// An error that shows only when the output is closed, as on network file systems.
#[test]
fn closing_the_output_fails() {
    if !*STRACE {
        return;
    }
    let folder = folder(10);
    let trace = ["-e", "trace=close,write"];
    traced(&folder, &trace, &[]);
    let calls_before = calls(&folder);
    // The duplicate of descriptor 1 that the answers went to.
    let mut writes = calls_before
        .lines()
        .filter_map(|line| line.strip_prefix("write("));
    let answers = writes
        .find(|line| line.contains("0200"))
        .expect("answers are written");
    let (descriptor, _) = answers.split_once(',').expect("it has operands");
    let closes: Vec<&str> = calls_before
        .lines()
        .filter(|line| line.starts_with("close("))
        .collect();
    let close = format!("close({descriptor})");
    let place = closes.iter().rposition(|line| line.starts_with(&close));
    let place = place.expect("the output is closed by hand") + 1;
    for (error, why) in [
        ("EIO", "Input/output error"),
        ("ENOSPC", "No space left on device"),
    ] {
        let injection = format!("inject=close:error={error}:when={place}");
        let ending = traced(&folder, &[&trace[..], &["-e", &injection]].concat(), &[]);
        calls(&folder);
        let line = format!("answers are incomplete: cannot write standard output: {why}");
        assert_failed(&folder, &injection, &ending, &line);
    }
}
