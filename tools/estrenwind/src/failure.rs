//! How the command ends.

use std::fmt::Display;
use std::io;
use std::process::ExitCode;

/// The exit status of a command that did its work.
#[derive(Clone, Copy, Debug, PartialEq, Eq)]
pub enum Status {
    /// All went well; of a run, every frame was answered.
    Well,
    /// Some frame of a run was refused.
    FrameRefused,
    /// The recipe was refused, or has no sheet. What there was to say was said.
    RecipeRefused,
}

impl From<Status> for ExitCode {
    fn from(status: Status) -> ExitCode {
        ExitCode::from(match status {
            Status::Well => 0,
            Status::FrameRefused => 1,
            Status::RecipeRefused => 3,
        })
    }
}

/// Why a command could not do its work.
#[derive(Debug)]
pub enum Failure {
    /// The command line makes no sense: 2.
    Usage(String),
    /// The recipe was refused, and this says why: 3.
    Refused(String),
    /// Input or output failed: 74, as sysexits.h has it.
    Files(String),
}

impl Failure {
    /// A file that could not be worked with: "cannot read NAME: the system's words".
    pub fn file(doing: &str, name: impl Display, error: io::Error) -> Failure {
        Failure::Files(format!("cannot {doing} {name}: {}", words(&error)))
    }

    pub fn status(&self) -> ExitCode {
        ExitCode::from(match self {
            Failure::Usage(_) => 2,
            Failure::Refused(_) => 3,
            Failure::Files(_) => 74,
        })
    }
}

/// The system's words for an error, without the number that Rust adds.
pub fn words(error: &io::Error) -> String {
    let text = error.to_string();
    match text.split_once(" (os error") {
        Some((words, _)) => words.to_owned(),
        None => text,
    }
}
