//! Reading or writing fails: the status is 74, one line says why, and no half-written file is left. A
//! file that stood there before is as it was. Errors that strace puts in are in injected.rs.

use crate::child::{Child, Ending};
use crate::folder::Folder;
use crate::soon::{read_soon, soon};
use crate::{assert_same, command, counted, counted_answers, estrenwind, left_out, IDENTITY};
use std::fs::{self, File, OpenOptions, Permissions};
use std::io::Read;
use std::os::unix::fs::{symlink, MetadataExt, PermissionsExt};
use std::os::unix::process::{CommandExt, ExitStatusExt};
use std::path::Path;
use std::process::{Command, Stdio};
use std::thread::sleep;
use std::time::{Duration, Instant};

/// A folder with a recipe, frames and an old output.
pub fn folder(frames: u64) -> Folder {
    let folder = Folder::new();
    folder.with("recipe", IDENTITY);
    folder.with("frames", counted(frames));
    folder.with("out", OLD);
    folder
}

const OLD: &str = "old\n";

/// The command under a shell in the folder: "$0" run and these words.
fn shell(folder: &Folder, words: &str) -> Command {
    let mut command = Command::new("/bin/sh");
    command
        .args(["-c", &format!("exec \"$0\" {words}")])
        .arg(estrenwind())
        .current_dir(folder.path());
    command
}

pub fn ended(command: &mut Command) -> Ending {
    Child::start_on(command, File::open("/dev/null").unwrap()).ending()
}

/// It failed with this line, and left the folder and the old output as they were.
#[track_caller]
pub fn assert_failed(folder: &Folder, case: &str, ending: &Ending, line: &str) {
    assert_eq!(ending.errors, format!("estrenwind: {line}\n"), "{case}");
    assert_eq!(ending.status.code(), Some(74), "{case}");
    assert_unchanged(folder, case);
}

#[track_caller]
fn assert_unchanged(folder: &Folder, case: &str) {
    assert_eq!(folder.names(), ["frames", "out", "recipe"], "{case}");
    assert_eq!(folder.read("out"), OLD.as_bytes(), "{case}");
}

#[test]
fn an_output_that_takes_nothing() {
    for frames in [1, 20_000] {
        let folder = folder(frames);
        for (words, name, why) in [
            (">/dev/full", "standard output", "No space left on device"),
            (">&-", "standard output", "Bad file descriptor"),
            ("1</dev/null", "standard output", "Bad file descriptor"),
            ("-o /dev/full", "/dev/full", "No space left on device"),
        ] {
            for options in ["", "--decimal", "--shard 1/2"] {
                let words = format!("run recipe frames {options} {words}");
                let line = format!("answers are incomplete: cannot write {name}: {why}");
                assert_failed(&folder, &words, &ended(&mut shell(&folder, &words)), &line);
            }
        }
    }
}

/// Standard output is not there at all, and no answer is to be written: a script would take the empty
/// output for the answers.
#[test]
fn a_closed_output_and_no_frames() {
    let folder = folder(0);
    let ending = ended(&mut shell(&folder, "run recipe frames >&-"));
    let line = "answers are incomplete: cannot write standard output: Bad file descriptor";
    assert_failed(&folder, ">&-", &ending, line);
    // Nothing goes to standard output here, so that it may be closed.
    let ending = ended(&mut shell(&folder, "run recipe frames -o new >&-"));
    assert_eq!(ending.status.code(), Some(0), "{}", ending.errors);
}

#[test]
fn an_input_that_is_none() {
    let folder = folder(1);
    for (words, line) in [
        (
            "run recipe <&-",
            "cannot read standard input: Bad file descriptor",
        ),
        (
            "run recipe - <&-",
            "cannot read standard input: Bad file descriptor",
        ),
        (
            "run recipe </",
            "answers are incomplete: cannot read standard input: Is a directory",
        ),
        (
            "run recipe /",
            "answers are incomplete: cannot read /: Is a directory",
        ),
        (
            "run recipe missing",
            "cannot read missing: No such file or directory",
        ),
        (
            "run recipe frames/x",
            "cannot read frames/x: Not a directory",
        ),
        (
            "run recipe / -o out",
            "cannot read /: Is a directory: out is as it was",
        ),
        (
            "run recipe missing -o out",
            "cannot read missing: No such file or directory",
        ),
        ("run recipe --trace 1 /", "cannot read /: Is a directory"),
        (
            "join missing -o out",
            "cannot read missing: No such file or directory",
        ),
        ("join / -o out", "cannot read /: Is a directory"),
    ] {
        assert_failed(&folder, words, &ended(&mut shell(&folder, words)), line);
    }
}

#[test]
fn an_output_that_cannot_be_opened() {
    let folder = folder(1);
    for (out, why) in [
        ("/", "Is a directory"),
        (".", "Is a directory"),
        ("missing/out", "No such file or directory"),
        ("new/", "No such file or directory"),
        ("''", "No such file or directory"),
        ("frames/out", "Not a directory"),
    ] {
        let words = format!("run recipe frames -o {out}");
        let name = out.replace('\'', "");
        let line = format!("cannot write {name}: {why}");
        assert_failed(&folder, out, &ended(&mut shell(&folder, &words)), &line);
    }
}

/// Nobody may do less than anybody else; whoever is not root need not be made him.
fn as_nobody(mut command: Command) -> Command {
    if fs::metadata("/proc/self").unwrap().uid() == 0 {
        command.uid(65_534).gid(65_534);
    }
    command
}

/// A folder, or an old output, that may not be written.
#[test]
fn an_output_without_permission() {
    let folder = folder(1);
    let mode = |name: &str, mode| {
        fs::set_permissions(folder.file(name), Permissions::from_mode(mode)).unwrap();
    };
    let run = |words: &str| ended(&mut as_nobody(shell(&folder, words)));
    if !run("run recipe frames")
        .errors
        .contains("1 frame, 1 answered")
    {
        left_out(
            "the tests' folder cannot be read by others: outputs without permission are left out",
        );
        return;
    }
    mode(".", 0o555);
    let line = "cannot write new: Permission denied";
    assert_failed(&folder, "folder", &run("run recipe frames -o new"), line);
    mode(".", 0o777);
    mode("out", 0o444);
    let line = "cannot write out: Permission denied";
    assert_failed(&folder, "file", &run("run recipe frames -o out"), line);
    mode(".", 0o755);
}

#[test]
fn a_reader_that_goes_away() {
    let folder = folder(0);
    let mut command = command(["run"]);
    command.arg(folder.file("recipe")).stdout(Stdio::piped());
    let mut child = Child::spawn(&mut command);
    let mut output = child.take_output();
    assert!(child.offer(counted(3_000).as_bytes()));
    soon("an answer", move || output.read_exact(&mut [0; 19])).unwrap();
    let mut fed = 0;
    while child.offer(counted(4_096).as_bytes()) {
        fed += 1;
        assert!(fed < 1_000, "the command reads on");
    }
    let (status, errors) = child.outcome();
    let errors = String::from_utf8_lossy(&errors);
    let line = "estrenwind: answers are incomplete: cannot write standard output: Broken pipe\n";
    assert_eq!((errors.as_ref(), status.code()), (line, Some(74)));
}

/// Standard error fails too: the status still says that something is missing, and nothing else happens.
#[test]
fn nobody_to_tell() {
    let folder = folder(100);
    for errors in ["2>&-", "2>/dev/full", "2</dev/null"] {
        let ending = ended(&mut shell(&folder, &format!("run recipe frames {errors}")));
        assert_same(errors, &ending.output, counted_answers(100).as_bytes());
        assert_eq!(ending.status.code(), Some(1), "{errors}");
        for words in [">/dev/full", ">&-", "-o /dev/full", "-o missing/out"] {
            let ending = ended(&mut shell(
                &folder,
                &format!("run recipe frames {words} {errors}"),
            ));
            assert_eq!(ending.status.code(), Some(74), "{words} {errors}");
            assert_eq!(ending.errors, "");
        }
        assert_unchanged(&folder, errors);
    }
}

/// A limit on the size of files, and what stands in a file that is written to straight away.
#[test]
fn a_limit_on_the_size_of_files() {
    let folder = folder(20_000);
    let limited = |words: &str| {
        let mut command = Command::new("/bin/sh");
        command
            .args([
                "-c",
                &format!("ulimit -f 64; exec \"$0\" run recipe frames {words}"),
            ])
            .arg(estrenwind())
            .current_dir(folder.path());
        ended(&mut command)
    };
    let line = "cannot write out: File too large: out is as it was";
    assert_failed(&folder, "-o", &limited("-o out"), line);
    let ending = limited(">new");
    let line = "answers are incomplete: cannot write standard output: File too large";
    assert_eq!(ending.errors, format!("estrenwind: {line}\n"));
    assert_eq!(ending.status.code(), Some(74));
    let expected = counted_answers(20_000);
    assert_same("new", &folder.read("new"), &expected.as_bytes()[..64 * 512]);
}

/// A shell on a file system of 64 KiB, "$1", which nobody else sees and which is gone when the shell has
/// ended.
fn on_a_small_file_system(folder: &Folder, options: &[&str], script: &str) -> Command {
    let mount = "mount -t tmpfs -o size=64k tmpfs \"$1\"";
    let mut command = Command::new("unshare");
    command.args(options).args(["--mount", "/bin/sh", "-c"]);
    command
        .arg(format!("{mount} && {script}"))
        .arg(estrenwind());
    command.arg(folder.file("small"));
    command.current_dir(folder.path());
    command
}

#[test]
fn a_full_file_system() {
    let folder = folder(20_000);
    fs::create_dir(folder.file("small")).unwrap();
    // Whoever is not root is, in a name space of users, where the system allows it.
    let can_be_mounted = |options: &&&[&str]| {
        let output = on_a_small_file_system(&folder, options, "exit 0").output();
        output.is_ok_and(|output| output.status.success())
    };
    let ways: [&[&str]; 2] = [&[], &["--map-root-user"]];
    let Some(options) = ways.iter().find(can_be_mounted) else {
        left_out("a small file system cannot be mounted: writing to a full one is left out");
        return;
    };
    let script = "{ echo old >\"$1/out\"; \"$0\" run recipe frames -o \"$1/out\"; echo $?; ls \"$1\"; cat \"$1/out\"; }";
    let ending = ended(&mut on_a_small_file_system(&folder, options, script));
    let out = folder.file("small/out").display().to_string();
    let line =
        format!("estrenwind: cannot write {out}: No space left on device: {out} is as it was\n");
    assert_eq!(ending.errors, line);
    assert_eq!(String::from_utf8_lossy(&ending.output), "74\nout\nold\n");
}

/// The command with the default action for signals that end it, whatever the tests run under: nohup has SIGHUP
/// ignored, and a shell SIGINT in the background.
fn with_default_signals(mut command: Command) -> Command {
    let prepare = || {
        for (number, _) in ENDING {
            // SAFETY: no handler is set, and signal may be called between fork and exec.
            unsafe { signal(number, SIG_DFL) };
        }
        Ok(())
    };
    // SAFETY: it calls nothing but signal.
    unsafe { command.pre_exec(prepare) };
    command
}

const ENDING: [(i32, &str); 4] = [
    (1, "SIGHUP"),
    (2, "SIGINT"),
    (3, "SIGQUIT"),
    (15, "SIGTERM"),
];

/// Signals that end the command while it waits for frames.
#[test]
fn signals() {
    for (number, name) in ENDING {
        let folder = folder(1);
        let command = command(["run", "recipe", "-", "-o", "out"]);
        let mut child = Child::spawn(with_default_signals(command).current_dir(folder.path()));
        assert!(child.offer(counted(5_000).as_bytes()));
        child.wait_until_taken();
        let start = Instant::now();
        while folder.names().len() == 3 {
            assert!(
                start.elapsed() < Duration::from_secs(20),
                "no half-written file"
            );
            sleep(Duration::from_millis(2));
        }
        assert!(folder
            .names()
            .iter()
            .any(|name| name.starts_with("out.partial-")));
        assert_eq!(folder.read("out"), OLD.as_bytes());
        child.signal(number);
        let (status, errors) = child.outcome();
        assert_eq!(status.signal(), Some(number), "{name}: {status}");
        assert_eq!(String::from_utf8_lossy(&errors), "", "{name}");
        assert_unchanged(&folder, name);
    }
}

/// A signal that is ignored when the command starts, as SIGHUP is under nohup, stays ignored.
#[test]
fn an_ignored_signal() {
    let folder = folder(1);
    let mut command = Command::new("/bin/sh");
    let script = "trap '' HUP; exec \"$0\" run recipe - -o out";
    command.args(["-c", script]).arg(estrenwind());
    let mut child = Child::spawn(command.current_dir(folder.path()));
    assert!(child.offer(counted(5).as_bytes()));
    child.wait_until_taken();
    child.signal(1);
    assert!(child.offer(b"0000000000000000\n"));
    let ending = child.ending();
    assert_eq!(ending.status.code(), Some(0), "{}", ending.errors);
    assert_eq!(folder.names(), ["frames", "out", "recipe"]);
}

/// The old output keeps its permission bits, and a link stays one; what is no file is written to.
#[test]
fn what_is_replaced() {
    let folder = folder(10);
    let answers = counted_answers(10);
    let out = folder.file("out");
    fs::set_permissions(&out, Permissions::from_mode(0o640)).unwrap();
    symlink("out", folder.file("link")).unwrap();
    symlink("link", folder.file("second")).unwrap();
    symlink("new", folder.file("dangling")).unwrap();
    symlink("loop", folder.file("loop")).unwrap();
    for name in ["out", "link", "second"] {
        fs::write(&out, OLD).unwrap();
        let ending = ended(&mut shell(&folder, &format!("run recipe frames -o {name}")));
        assert_eq!(ending.status.code(), Some(1), "{}", ending.errors);
        assert_same(name, &folder.read("out"), answers.as_bytes());
        assert_eq!(
            fs::metadata(&out).unwrap().permissions().mode() & 0o7777,
            0o640
        );
        let is_link = fs::symlink_metadata(folder.file(name))
            .unwrap()
            .is_symlink();
        assert_eq!(is_link, name != "out");
    }
    let ending = ended(&mut shell(&folder, "run recipe frames -o dangling"));
    assert_eq!(ending.status.code(), Some(1), "{}", ending.errors);
    assert_same("new", &folder.read("new"), answers.as_bytes());
    let ending = ended(&mut shell(&folder, "run recipe frames -o loop"));
    assert_eq!(
        ending.errors,
        "estrenwind: cannot write loop: Too many levels of symbolic links\n"
    );
    let long = "n".repeat(255);
    let ending = ended(&mut shell(&folder, &format!("run recipe frames -o {long}")));
    assert_eq!(ending.status.code(), Some(1), "{}", ending.errors);
    assert_same("a long name", &folder.read(&long), answers.as_bytes());
    let ending = ended(&mut shell(&folder, "run recipe frames -o /dev/null"));
    assert_eq!(ending.status.code(), Some(1), "{}", ending.errors);
    assert!(!Path::new("/dev/null").metadata().unwrap().is_file());
    let names = [
        "dangling", "frames", "link", "loop", "new", &long, "out", "recipe", "second",
    ];
    assert_eq!(folder.names(), names);
}

/// A named pipe is written to straight away, and so is a file that the output is redirected to.
#[test]
fn a_named_pipe() {
    let folder = folder(20_000);
    folder.make_pipe("pipe");
    let mut command = shell(&folder, "run recipe frames -o pipe");
    let child = Child::spawn_on(&mut command, File::open("/dev/null").unwrap());
    let pipe = folder.open_pipe("pipe", OpenOptions::new().read(true));
    let (answers, _) = read_soon(pipe, u64::MAX);
    assert_same("pipe", &answers, counted_answers(20_000).as_bytes());
    assert_eq!(child.ending().status.code(), Some(1));
}

/// Non-blocking descriptors: nothing is lost, and the command does not work while it waits.
#[test]
fn descriptors_that_are_not_ready() {
    let folder = folder(0);
    let mut command = command(["run"]);
    command.arg(folder.file("recipe")).stdout(Stdio::piped());
    let prepare = || {
        for descriptor in [0, 1] {
            // SAFETY: fcntl touches no memory, and may be called between fork and exec.
            if unsafe { fcntl(descriptor, F_SETFL, O_NONBLOCK) } == -1 {
                return Err(std::io::Error::last_os_error());
            }
        }
        Ok(())
    };
    // SAFETY: it calls nothing but fcntl.
    unsafe { command.pre_exec(prepare) };
    let mut child = Child::spawn(&mut command);
    let mut output = child.take_output();
    sleep(Duration::from_millis(300));
    // More answers than a pipe holds, and nobody reads them yet.
    let reader = std::thread::spawn(move || {
        sleep(Duration::from_millis(700));
        let mut answers = Vec::new();
        output.read_to_end(&mut answers).unwrap();
        answers
    });
    assert!(child.offer(counted(20_000).as_bytes()));
    sleep(Duration::from_millis(300));
    let (work, _) = child.work();
    assert!(
        work < Duration::from_millis(600),
        "it worked for {work:?} while it waited"
    );
    let ending = child.ending();
    assert_same(
        "not ready",
        &reader.join().unwrap(),
        counted_answers(20_000).as_bytes(),
    );
    assert_eq!(ending.status.code(), Some(1), "{}", ending.errors);
}

const SIG_DFL: usize = 0;
const F_SETFL: i32 = 4;
const O_NONBLOCK: i32 = 0o4000;

unsafe extern "C" {
    fn signal(number: i32, handler: usize) -> usize;
    fn fcntl(descriptor: i32, request: i32, ...) -> i32;
}
