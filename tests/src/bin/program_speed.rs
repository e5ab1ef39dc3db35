//! Times the built program `run` beside the plain one and beside the command `estrenwind run`, on a
//! million frames of a recipe of 20 steps.
//!
//!     program_speed BUILT PLAIN COMMAND FOLDER
//!
//! The frames are written to files in FOLDER. The three take turns, and times and ratios are medians
//! of the turns, so that what else the machine does falls on all. Fails where the outputs differ, the
//! built program takes more than 1.5 times as long as the plain one, or the command more than 1.3
//! times as long as the program.

use estrenwind_tests::speed::{median, write_frames, FRAMES, RECIPE};
use std::env;
use std::fs::{self, File};
use std::io::Write;
use std::path::{Path, PathBuf};
use std::process::{exit, Command, Stdio};
use std::time::Instant;

const TURNS: usize = 15;
const MOST_OF_PLAIN: f64 = 1.5;
const MOST_OF_PROGRAM: f64 = 1.3;

/// The recipe, the frames, and both with an empty line between them.
struct Files {
    recipe: PathBuf,
    frames: PathBuf,
    input: PathBuf,
}

impl Files {
    fn write(folder: &Path) -> std::io::Result<Files> {
        let [recipe, frames, input] = ["recipe", "frames", "input"].map(|name| folder.join(name));
        fs::write(&recipe, RECIPE)?;
        write_frames(File::create(&frames)?)?;
        let mut whole = File::create(&input)?;
        writeln!(whole, "{RECIPE}")?;
        std::io::copy(&mut File::open(&frames)?, &mut whole)?;
        Ok(Files {
            recipe,
            frames,
            input,
        })
    }

    fn remove(&self) -> std::io::Result<()> {
        [&self.recipe, &self.frames, &self.input]
            .into_iter()
            .try_for_each(fs::remove_file)
    }
}

/// One of the three, started on the files.
struct Timed<'a> {
    program: &'a str,
    is_command: bool,
}

impl Timed<'_> {
    fn started(&self, files: &Files) -> Command {
        let mut command = Command::new(self.program);
        if self.is_command {
            command.args(["run", "--quiet"]);
            command.args([&files.recipe, &files.frames]);
        } else {
            command.stdin(File::open(&files.input).expect("it was written"));
        }
        command.stderr(Stdio::null());
        command
    }

    fn seconds(&self, files: &Files) -> f64 {
        let start = Instant::now();
        let status = self.started(files).stdout(Stdio::null()).status();
        let status = status.unwrap_or_else(|error| panic!("{}: {error}", self.program));
        assert!(status.success(), "{}: {status}", self.program);
        start.elapsed().as_secs_f64()
    }

    fn output(&self, files: &Files) -> Vec<u8> {
        let output = self.started(files).output();
        output
            .unwrap_or_else(|error| panic!("{}: {error}", self.program))
            .stdout
    }
}

fn main() {
    let words: Vec<String> = env::args().skip(1).collect();
    let [built, plain, command, folder] = &words[..] else {
        eprintln!("program_speed BUILT PLAIN COMMAND FOLDER");
        exit(2);
    };
    let files = Files::write(Path::new(folder)).unwrap_or_else(|error| panic!("{folder}: {error}"));
    let timed =
        [(built, false), (plain, false), (command, true)].map(|(program, is_command)| Timed {
            program,
            is_command,
        });
    let answers = timed[0].output(&files);
    for other in &timed[1..] {
        assert!(
            answers == other.output(&files),
            "the answers of {} differ",
            other.program
        );
    }
    assert_eq!(answers.len() as u64, 19 * FRAMES);
    assert!(!answers.starts_with(b"ff"));
    let mut times = [vec![], vec![], vec![]];
    for turn in 0..TURNS {
        for place in 0..3 {
            let next = (turn + place) % 3;
            times[next].push(timed[next].seconds(&files));
        }
    }
    files.remove().expect("they were written");
    let ratio = |x: usize, y: usize| {
        let mut ratios: Vec<f64> = times[x].iter().zip(&times[y]).map(|(x, y)| x / y).collect();
        median(&mut ratios)
    };
    let (of_plain, of_program) = (ratio(0, 1), ratio(2, 0));
    let [ours, theirs, the_command] = times.map(|mut times| median(&mut times));
    println!("run, {FRAMES} frames of 20 steps: {ours:.2} s, a plain program {theirs:.2} s, {of_plain:.2} times");
    println!("estrenwind run, the same: {the_command:.2} s, {of_program:.2} times run");
    if of_plain > MOST_OF_PLAIN || of_program > MOST_OF_PROGRAM {
        eprintln!("more than {MOST_OF_PLAIN} or {MOST_OF_PROGRAM} times");
        exit(1);
    }
}
