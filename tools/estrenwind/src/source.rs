//! Where bytes come from: a file, or standard input.

use crate::failure::{words, Failure};
use crate::system::{self, Ready};
use std::fs::File;
use std::io::{self, ErrorKind, Read, Seek};
use std::os::fd::AsFd;
use std::path::Path;

/// An input that is open.
pub struct Source {
    file: File,
    /// What it is called in messages.
    pub name: String,
    /// How many bytes it has; none where that is not known before its end.
    pub size: Option<u64>,
    /// How many of them have been read.
    pub read: u64,
}

impl Source {
    /// Standard input where there is no path, or the path is `-`.
    pub fn open(path: Option<&Path>) -> Result<Source, Failure> {
        let path = path.filter(|path| *path != Path::new("-"));
        let name = path.map_or("standard input".to_owned(), |path| {
            path.display().to_string()
        });
        let file = match path {
            None => standard_input(),
            Some(path) => File::open(path),
        };
        let file = file.map_err(|error| Failure::file("read", &name, error))?;
        Ok(Source {
            size: bytes_left(&file),
            file,
            name,
            read: 0,
        })
    }

    /// Reads some bytes; none at the end. Again where a signal came between, later where the input is not ready.
    pub fn read(&mut self, room: &mut [u8]) -> io::Result<usize> {
        loop {
            match self.file.read(room) {
                Ok(count) => {
                    self.read += count as u64;
                    return Ok(count);
                }
                Err(error) if error.kind() == ErrorKind::Interrupted => {}
                Err(error) if error.kind() == ErrorKind::WouldBlock => {
                    system::wait_until(Ready::Read, &self.file)
                }
                Err(error) => return Err(error),
            }
        }
    }

    /// What is to be said of an error in reading.
    pub fn cannot_read(&self, error: io::Error) -> String {
        format!("cannot read {}: {}", self.name, words(&error))
    }
}

/// Rust's own handle of it would hold what is read a second time.
fn standard_input() -> io::Result<File> {
    if system::stdin_is_closed() {
        return Err(system::not_open());
    }
    Ok(io::stdin().as_fd().try_clone_to_owned()?.into())
}

/// The bytes of a regular file from where it stands.
fn bytes_left(mut file: &File) -> Option<u64> {
    let data = file.metadata().ok().filter(|data| data.is_file())?;
    Some(data.len().saturating_sub(file.stream_position().ok()?))
}
