//! How far a run is, on standard error: a bar on a terminal, a line now and then elsewhere. It takes no colours and no escape sequences.

use crate::number::grouped;
use crate::system;
use std::io::{self, IsTerminal, Write};
use std::time::{Duration, Instant};

/// The bar is drawn anew no sooner than this.
const BAR_PAUSE: Duration = Duration::from_millis(100);

/// Where there is no terminal, a line is written after each of these.
const LINE_PAUSE: Duration = Duration::from_secs(5);

/// Columns that the bar takes at most. The last column of a terminal stays free: some go to the next line there.
const MOST_COLUMNS: usize = 79;

/// Columns between the bar's brackets.
const BAR: usize = 20;

/// Writes a line to standard error. Where that fails there is nobody to tell.
pub fn say(line: &str) {
    // In one call, so that the lines of several commands on one terminal do not mix.
    let _ = io::stderr().write_all(format!("{line}\n").as_bytes());
}

/// What a run shows while it goes on.
pub struct Progress {
    /// None where nothing is shown.
    shape: Option<Shape>,
    start: Instant,
    next: Instant,
    /// Columns of the bar that stands on the terminal.
    drawn: usize,
}

#[derive(Clone, Copy)]
enum Shape {
    Bar,
    Lines,
}

/// How far a run is.
#[derive(Clone, Copy)]
pub struct Reached {
    pub frames: u64,
    /// Bytes of the input that were read, and all that there are, where that is known.
    pub read: u64,
    pub size: Option<u64>,
}

impl Progress {
    pub fn start(quiet: bool) -> Progress {
        let shape = match (quiet, io::stderr().is_terminal()) {
            (true, _) => None,
            (false, true) => Some(Shape::Bar),
            (false, false) => Some(Shape::Lines),
        };
        let start = Instant::now();
        let pause = shape.map_or(LINE_PAUSE, Shape::pause);
        Progress {
            shape,
            start,
            next: start + pause,
            drawn: 0,
        }
    }

    /// Shows it, where it is time to. Looks at the clock, so once for a buffer is enough.
    pub fn show(&mut self, reached: Reached) {
        let Some(shape) = self.shape else { return };
        let now = Instant::now();
        if now < self.next {
            return;
        }
        self.next = now + shape.pause();
        let elapsed = now - self.start;
        match shape {
            Shape::Lines => say(&line(reached, elapsed)),
            Shape::Bar => {
                let columns = system::terminal_columns()
                    .map_or(MOST_COLUMNS, |columns| columns.saturating_sub(1));
                self.draw(&bar(reached, elapsed, columns.min(MOST_COLUMNS)));
            }
        }
    }

    /// Removes the bar.
    pub fn wipe(&mut self) {
        if self.drawn > 0 {
            self.draw("");
            let _ = io::stderr().write_all(b"\r");
        }
    }

    /// Puts a text in the place of the bar that stands there; spaces over what is longer.
    fn draw(&mut self, text: &str) {
        let _ = io::stderr().write_all(format!("\r{text:<0$}", self.drawn).as_bytes());
        self.drawn = text.chars().count();
    }
}

/// A failure's line must not follow on a bar.
impl Drop for Progress {
    fn drop(&mut self) {
        self.wipe();
    }
}

impl Shape {
    fn pause(self) -> Duration {
        match self {
            Shape::Bar => BAR_PAUSE,
            Shape::Lines => LINE_PAUSE,
        }
    }
}

/// `estrenwind: 1,200,000 frames, 43%, 310,000 a second`
fn line(reached: Reached, elapsed: Duration) -> String {
    let percent = percent(reached).map_or(String::new(), |percent| format!(", {percent}%"));
    format!(
        "estrenwind: {}{percent}, {} a second",
        frames(reached.frames),
        rate(reached, elapsed)
    )
}

/// `[########            ]  43%  1,200,000 frames  310,000 a second  0:05 left`, without what does not fit.
fn bar(reached: Reached, elapsed: Duration, columns: usize) -> String {
    let (frames, rate) = (frames(reached.frames), rate(reached, elapsed));
    let mut parts = Vec::new();
    if let Some(percent) = percent(reached) {
        let full = BAR * percent as usize / 100;
        parts.push(format!(
            "[{}{}] {percent:>3}%",
            "#".repeat(full),
            " ".repeat(BAR - full)
        ));
    }
    parts.push(frames);
    parts.push(format!("{rate} a second"));
    if let Some(left) = time_left(reached, elapsed) {
        parts.push(format!("{} left", clock(left)));
    }
    let mut text = String::new();
    for part in parts {
        let gap = if text.is_empty() { "" } else { "  " };
        if text.chars().count() + gap.len() + part.chars().count() > columns {
            break;
        }
        text = text + gap + &part;
    }
    text
}

/// `1 frame`, `2 frames`
pub fn frames(count: u64) -> String {
    format!(
        "{} frame{}",
        grouped(count),
        if count == 1 { "" } else { "s" }
    )
}

fn percent(reached: Reached) -> Option<u64> {
    // A file that grows while it is read stays at 100.
    let size = reached.size.filter(|&size| size > 0)?;
    Some((u128::from(reached.read) * 100 / u128::from(size)).min(100) as u64)
}

fn rate(reached: Reached, elapsed: Duration) -> String {
    let millis = elapsed.as_millis().max(1);
    grouped((u128::from(reached.frames) * 1000 / millis) as u64)
}

fn time_left(reached: Reached, elapsed: Duration) -> Option<Duration> {
    let left = reached.size?.checked_sub(reached.read)?;
    let millis = elapsed.as_millis() * u128::from(left) / u128::from(reached.read.max(1));
    Some(Duration::from_millis(millis.try_into().ok()?))
}

/// `0:05`, `12:34`, `2:03:04`
fn clock(time: Duration) -> String {
    // A part of a second is still to be waited for.
    let seconds = time.as_millis().div_ceil(1000);
    let (minutes, seconds) = (seconds / 60, seconds % 60);
    match minutes / 60 {
        0 => format!("{minutes}:{seconds:02}"),
        hours => format!("{hours}:{:02}:{seconds:02}", minutes % 60),
    }
}

#[cfg(test)]
mod tests {
    use super::*;

    const HALF: Reached = Reached {
        frames: 1_200_000,
        read: 430,
        size: Some(1_000),
    };
    const UNKNOWN: Reached = Reached {
        frames: 1,
        read: 430,
        size: None,
    };
    const TIME: Duration = Duration::from_secs(4);

    #[test]
    fn lines() {
        assert_eq!(
            line(HALF, TIME),
            "estrenwind: 1,200,000 frames, 43%, 300,000 a second"
        );
        assert_eq!(line(UNKNOWN, TIME), "estrenwind: 1 frame, 0 a second");
    }

    #[test]
    fn bars() {
        let whole = "[########            ]  43%  1,200,000 frames  300,000 a second  0:06 left";
        assert_eq!(bar(HALF, TIME, 79), whole);
        assert_eq!(bar(HALF, TIME, whole.len()), whole);
        assert_eq!(
            bar(HALF, TIME, whole.len() - 1),
            "[########            ]  43%  1,200,000 frames  300,000 a second"
        );
        assert_eq!(bar(HALF, TIME, 30), "[########            ]  43%");
        assert_eq!(bar(HALF, TIME, 0), "");
        assert_eq!(bar(UNKNOWN, TIME, 79), "1 frame  0 a second");
        let done = Reached {
            read: 2_000,
            ..HALF
        };
        assert_eq!(
            bar(done, TIME, 79),
            "[####################] 100%  1,200,000 frames  300,000 a second"
        );
        let long = Reached {
            frames: u64::MAX,
            read: 1,
            size: Some(u64::MAX),
        };
        assert!(bar(long, Duration::from_secs(1 << 40), 79).len() <= 79);
        assert!(bar(long, Duration::ZERO, 79).len() <= 79);
    }

    #[test]
    fn an_empty_file() {
        assert_eq!(
            line(
                Reached {
                    frames: 0,
                    read: 0,
                    size: Some(0)
                },
                Duration::ZERO
            ),
            "estrenwind: 0 frames, 0 a second"
        );
    }

    #[test]
    fn clocks() {
        for (millis, text) in [
            (0, "0:00"),
            (1, "0:01"),
            (59_000, "0:59"),
            (59_001, "1:00"),
            (3_599_000, "59:59"),
            (7_384_000, "2:03:04"),
        ] {
            assert_eq!(clock(Duration::from_millis(millis)), text);
        }
    }
}
