//! The command `estrenwind run` takes little longer than the program `run`: at most 1.3 times, on a million
//! frames of a recipe of 20 steps. Alone in its file, so that no other test runs at the same time.
//!
//! The two take turns. What else the machine does can only lengthen a run, so the least times are compared:
//! noise would have to fall on every run of the one, and on none of the other.

use estrenwind_tests::speed::{median, write_frames, FRAMES, RECIPE};
use std::env;
use std::fs::{self, File};
use std::io::{self, Write};
use std::path::{Path, PathBuf};
use std::process::{Command, Stdio};
use std::time::Instant;

const TURNS: usize = 5;
const MOST: f64 = 1.3;

fn built(name: &str) -> PathBuf {
    let folder = env::var_os("ESTRENWIND_LIB_DIR").map_or("../build".into(), PathBuf::from);
    folder.join(name)
}

fn seconds(command: &mut Command) -> f64 {
    let start = Instant::now();
    let status = command.stderr(Stdio::null()).status();
    let status = status.unwrap_or_else(|error| panic!("{command:?}: {error}"));
    assert!(status.success(), "{command:?}: {status}");
    start.elapsed().as_secs_f64()
}

#[test]
fn a_million_frames() {
    let folder = Path::new(env!("CARGO_TARGET_TMPDIR"));
    let name = |name: &str| folder.join(format!("speed-{}-{name}", std::process::id()));
    let [recipe, input, frames, ours, theirs] =
        ["recipe", "input", "frames", "ours", "theirs"].map(name);
    fs::write(&recipe, RECIPE).unwrap();
    write_frames(File::create(&frames).unwrap()).unwrap();
    let mut whole = File::create(&input).unwrap();
    whole.write_all(format!("{RECIPE}\n").as_bytes()).unwrap();
    io::copy(&mut File::open(&frames).unwrap(), &mut whole).unwrap();

    let estrenwind =
        env::var_os("ESTRENWIND_COMMAND").map_or_else(|| built("estrenwind"), PathBuf::from);
    let command = |output: Stdio| {
        let mut command = Command::new(&estrenwind);
        command.arg("run").arg(&recipe).arg(&frames).stdout(output);
        seconds(&mut command)
    };
    let program = |output: Stdio| {
        let mut program = Command::new(built("run"));
        program.stdin(File::open(&input).unwrap()).stdout(output);
        seconds(&mut program)
    };
    // The first of each are not timed, but their answers are compared.
    command(File::create(&ours).unwrap().into());
    program(File::create(&theirs).unwrap().into());
    let same = fs::read(&ours).unwrap() == fs::read(&theirs).unwrap();
    let (mut our, mut their) = (Vec::new(), Vec::new());
    for _ in 0..TURNS {
        our.push(command(Stdio::null()));
        their.push(program(Stdio::null()));
    }
    for path in [recipe, input, frames, ours, theirs] {
        fs::remove_file(path).unwrap();
    }
    assert!(same, "the answers differ");
    let (our, their) = (&mut our[..], &mut their[..]);
    let medians = [median(our), median(their)];
    let ratio = our[0] / their[0];
    let [command, program] = medians;
    // The harness keeps what a passing test prints to itself, but this goes past it.
    let _ = writeln!(
        io::stderr(),
        "\nestrenwind run, {FRAMES} frames of 20 steps: {command:.2} s, the program run {program:.2} s, least times {ratio:.2} to 1"
    );
    assert!(
        ratio <= MOST,
        "{our:?} against {their:?} seconds: {ratio:.2} times, more than {MOST}"
    );
}
