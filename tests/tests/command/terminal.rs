//! The command on a real terminal, that of tmux: the bar, and what Ctrl-C leaves.

use crate::child::Child;
use crate::folder::Folder;
use crate::soon::read_soon;
use crate::{assert_same, command, counted, counted_answers, estrenwind, left_out, IDENTITY};
use std::fs::{self, File, OpenOptions};
use std::io::Write;
use std::process::{Command, Output};
use std::sync::atomic::{AtomicU32, Ordering};
use std::thread::sleep;
use std::time::{Duration, Instant};

const LONGEST: Duration = Duration::from_secs(30);

/// A terminal with a shell in it, on a tmux of its own.
struct Terminal {
    socket: String,
    folder: Folder,
}

impl Terminal {
    /// A terminal of so many columns, on which the shell runs this script in the folder: "$0" is the
    /// command, `recipe` and 200,000 `frames` are files, `in` and `slow` named pipes. None where there is no
    /// tmux. What is written to it goes to the file `raw` too.
    fn start(columns: u32, environment: &str, script: &str) -> Option<Terminal> {
        static COUNT: AtomicU32 = AtomicU32::new(0);
        if Command::new("tmux").arg("-V").output().is_err() {
            left_out("tmux is missing: the command on a terminal is left out");
            return None;
        }
        let folder = Folder::new();
        folder.with("recipe", IDENTITY);
        folder.with("frames", counted(200_000));
        folder.make_pipe("in");
        folder.make_pipe("slow");
        // The command starts when the terminal is watched. A trapped signal is no ignored one, so that Ctrl-C
        // ends the command, and not this shell.
        let script = format!(
            "trap : INT\nuntil [ -e go ]; do sleep 0.02; done\n{environment} {script}\necho \"ended with $?\"\nsleep 100\n"
        );
        let script = script.replace("\"$0\"", &format!("'{}'", estrenwind().display()));
        let script = folder.with("script", script);
        let count = COUNT.fetch_add(1, Ordering::Relaxed);
        let socket = format!("estrenwind-{}-{count}", std::process::id());
        let terminal = Terminal { socket, folder };
        let size = columns.to_string();
        let place = terminal.folder.path().to_str().unwrap().to_string();
        let shell = format!("sh '{}'", script.display());
        terminal.tmux(&[
            "new-session",
            "-d",
            "-x",
            &size,
            "-y",
            "20",
            "-c",
            &place,
            &shell,
        ]);
        let raw = format!("cat >'{place}/raw'");
        terminal.tmux(&["pipe-pane", &raw]);
        terminal.wait_for("raw", |terminal| terminal.folder.file("raw").exists());
        fs::write(terminal.folder.file("go"), "").unwrap();
        Some(terminal)
    }

    #[track_caller]
    fn tmux(&self, words: &[&str]) -> Output {
        let mut command = Command::new("tmux");
        command
            .args(["-L", &self.socket, "-f", "/dev/null"])
            .args(words);
        let output = command.output().unwrap();
        assert!(
            output.status.success(),
            "{words:?}: {}",
            String::from_utf8_lossy(&output.stderr)
        );
        output
    }

    fn screen(&self) -> String {
        String::from_utf8_lossy(&self.tmux(&["capture-pane", "-p"]).stdout).into_owned()
    }

    /// Waits until something is so.
    #[track_caller]
    fn wait_for(&self, what: &str, is_so: impl Fn(&Terminal) -> bool) {
        let start = Instant::now();
        while !is_so(self) {
            assert!(
                start.elapsed() < LONGEST,
                "no {what} on the screen:\n{}",
                self.screen()
            );
            sleep(Duration::from_millis(20));
        }
    }

    #[track_caller]
    fn wait_for_text(&self, text: &str) {
        self.wait_for(text, |terminal| terminal.screen().contains(text));
    }

    /// The pipe that the command reads.
    fn input(&self) -> File {
        OpenOptions::new()
            .write(true)
            .open(self.folder.file("in"))
            .unwrap()
    }

    /// All that was written to the terminal, up to the end of the script. It comes by a pipe of its own, and may be behind the screen.
    #[track_caller]
    fn raw(&self) -> String {
        let raw = || String::from_utf8_lossy(&self.folder.read("raw")).into_owned();
        self.wait_for("end of the script", |_| raw().contains("ended with "));
        raw()
    }

    /// The files of the command.
    fn outputs(&self) -> Vec<String> {
        let names = self.folder.names().into_iter();
        names.filter(|name| name.starts_with("out")).collect()
    }
}

impl Drop for Terminal {
    fn drop(&mut self) {
        let _ = Command::new("tmux")
            .args(["-L", &self.socket, "kill-server"])
            .output();
    }
}

/// Frames are fed slowly: the bar goes with them, and is wiped before the last line.
#[test]
fn a_bar() {
    for environment in ["", "NO_COLOR=1", "TERM=dumb"] {
        let Some(terminal) = Terminal::start(100, environment, "\"$0\" run recipe in -o out")
        else {
            return;
        };
        let mut input = terminal.input();
        let frames = counted(2_000);
        let mut seen = 0;
        for piece in frames.as_bytes().chunks(frames.len() / 10 + 1) {
            input.write_all(piece).unwrap();
            sleep(Duration::from_millis(120));
            seen += usize::from(terminal.screen().contains(" a second"));
        }
        // Once it is drawn it stays; on a busy machine that may take a while.
        assert!(
            seen >= 2,
            "the bar was seen {seen} times:\n{}",
            terminal.screen()
        );
        drop(input);
        terminal.wait_for_text("ended with 1");
        let screen = terminal.screen();
        assert!(!screen.contains("a second"), "{screen}");
        let line = "estrenwind: 2,000 frames, 1,715 answered, 285 refused (30: 285)";
        assert_eq!(
            screen.lines().next().map(str::trim_end),
            Some(line),
            "{screen}"
        );
        assert_same(
            "out",
            &terminal.folder.read("out"),
            counted_answers(2_000).as_bytes(),
        );
        let raw = terminal.raw();
        assert!(raw.contains(" a second"), "{raw:?}");
        assert!(!raw.contains('\x1b'), "{raw:?}");
    }
}

/// Of a file the bar has percents. A slow reader of a named pipe keeps the command from its end.
#[test]
fn a_bar_of_a_file() {
    let Some(terminal) = Terminal::start(100, "", "\"$0\" run recipe frames -o slow") else {
        return;
    };
    let mut output = terminal
        .folder
        .open_pipe("slow", OpenOptions::new().read(true));
    let mut answers = Vec::new();
    for _ in 0..2 {
        let (front, rest) = read_soon(output, 900_000);
        answers.extend(front);
        output = rest;
        sleep(Duration::from_millis(300));
    }
    terminal.wait_for_text(" left");
    let screen = terminal.screen();
    let bar = screen.lines().next().unwrap().trim_end();
    assert!(
        bar.starts_with("[####") && bar.contains("#  ") && bar.contains("%  "),
        "{bar}"
    );
    assert!(bar.len() <= 79, "{bar}");
    let (rest, _) = read_soon(output, u64::MAX);
    answers.extend(rest);
    terminal.wait_for_text("ended with 1");
    assert_same("slow", &answers, counted_answers(200_000).as_bytes());
}

/// On a terminal that is too narrow, the bar takes one line all the same.
#[test]
fn a_narrow_terminal() {
    let Some(terminal) = Terminal::start(24, "", "\"$0\" run recipe in -o out") else {
        return;
    };
    let mut input = terminal.input();
    for _ in 0..8 {
        input.write_all(counted(100).as_bytes()).unwrap();
        sleep(Duration::from_millis(120));
    }
    terminal.wait_for_text("800 frames");
    let screen = terminal.screen();
    assert_eq!(screen.matches("frames").count(), 1, "{screen}");
}

#[test]
fn no_bar_where_it_is_quiet() {
    let Some(terminal) = Terminal::start(100, "", "\"$0\" run --quiet recipe in -o out") else {
        return;
    };
    let mut input = terminal.input();
    for _ in 0..5 {
        input.write_all(counted(100).as_bytes()).unwrap();
        sleep(Duration::from_millis(120));
    }
    drop(input);
    terminal.wait_for_text("ended with 1");
    assert!(!terminal.raw().contains("a second"), "{:?}", terminal.raw());
    assert!(
        terminal.screen().starts_with("estrenwind: 500 frames"),
        "{}",
        terminal.screen()
    );
}

/// Ctrl-C ends the command, and neither its output nor a half-written one is there.
#[test]
fn control_c() {
    let Some(terminal) = Terminal::start(100, "", "\"$0\" run recipe in -o out") else {
        return;
    };
    let mut input = terminal.input();
    for _ in 0..3 {
        input.write_all(counted(500).as_bytes()).unwrap();
        sleep(Duration::from_millis(120));
    }
    terminal.wait_for_text(" a second");
    assert!(
        matches!(&terminal.outputs()[..], [name] if name.starts_with("out.partial-")),
        "{:?}",
        terminal.outputs()
    );
    terminal.tmux(&["send-keys", "C-c"]);
    terminal.wait_for_text("ended with 130");
    assert_eq!(terminal.outputs(), [""; 0]);
    assert!(
        !terminal.screen().contains("answered"),
        "{}",
        terminal.screen()
    );
}

/// Slips are coloured on a terminal, and not where that is not wanted or the terminal has none. The script itself is
/// no recipe.
#[test]
fn colour() {
    for (environment, coloured) in [("", true), ("NO_COLOR=1", false), ("TERM=dumb", false)] {
        let Some(terminal) = Terminal::start(100, environment, "\"$0\" check script") else {
            return;
        };
        terminal.wait_for_text("ended with 3");
        let raw = terminal.raw();
        assert!(raw.contains("script:1:"), "{raw:?}");
        assert_eq!(raw.contains('\x1b'), coloured, "{environment}: {raw:?}");
    }
}

/// Where standard error is no terminal, a line every five seconds, and no bar.
#[test]
fn no_terminal() {
    let folder = Folder::new();
    let recipe = folder.with("recipe", IDENTITY);
    let start = |options: &[&str]| {
        let mut command = command(["run"]);
        Child::start_command(command.args(options).arg(&recipe))
    };
    let mut children = [start(&[]), start(&["--quiet"])];
    for _ in 0..13 {
        for child in &mut children {
            assert!(child.offer(counted(100).as_bytes()));
        }
        sleep(Duration::from_millis(500));
    }
    let [told, quiet] = children.map(|child| child.ending().errors);
    let last = "estrenwind: 1,300 frames, 1,118 answered, 182 refused (30: 182)\n";
    assert_eq!(quiet, last);
    // One line, or some on a machine that is busy; of the frames so far, and no bar.
    let lines = told.strip_suffix(last).unwrap_or_else(|| panic!("{told}"));
    assert!((1..=4).contains(&lines.lines().count()), "{told}");
    for line in lines.lines() {
        let counts = line
            .strip_prefix("estrenwind: ")
            .and_then(|line| line.strip_suffix(" a second"));
        let counts = counts.and_then(|counts| counts.split_once(" frames, "));
        let is_number = |text: &str| text.replace(',', "").parse::<u64>().is_ok();
        assert!(
            counts.is_some_and(|(frames, rate)| is_number(frames) && is_number(rate)),
            "{line}"
        );
    }
}
