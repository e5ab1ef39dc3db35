//! Where results go: standard output, or a file that is whole or as it was before.

use crate::failure::{words, Failure};
use crate::system::{self, Ready};
use std::ffi::{CString, OsString};
use std::fs::{self, File, OpenOptions};
use std::io::{self, ErrorKind, Write};
use std::os::fd::AsFd;
use std::os::unix::ffi::{OsStrExt, OsStringExt};
use std::path::{Path, PathBuf};

/// What is said of an output that nobody has a better word for.
const INCOMPLETE: &str = "the output is incomplete";

/// Symbolic links that are followed one after the other, as many as Linux follows.
const MOST_LINKS: usize = 40;

/// Bytes of a file's name that the name of its half-written file begins with: a name may have 255, and the rest is added.
const MOST_OF_NAME: usize = 200;

/// An output that is open. It has no buffer.
pub struct Output {
    /// None once it is closed.
    file: Option<File>,
    /// What it is called in messages.
    name: String,
    /// Where it goes to when it is whole; none where it is written to straight away.
    replaced: Option<Replaced>,
    /// What is said where it is written to straight away and something fails.
    incomplete: &'static str,
}

/// A file that is replaced by another one.
struct Replaced {
    half_written: PathBuf,
    target: PathBuf,
}

impl Output {
    /// Standard output where there is no path.
    ///
    /// A file is replaced only when its successor is whole, and keeps its permission bits. What exists and is no regular file, as a device or
    /// a named pipe, is written to straight away.
    pub fn open(path: Option<&Path>) -> Result<Output, Failure> {
        Output::open_for(INCOMPLETE, path)
    }

    /// The same with other words for what a failure leaves behind: "answers are incomplete".
    pub fn open_for(incomplete: &'static str, path: Option<&Path>) -> Result<Output, Failure> {
        system::ignore_size_limit_signal();
        let name = path.map_or("standard output".to_owned(), |path| {
            path.display().to_string()
        });
        let mut output = Output {
            file: None,
            name,
            replaced: None,
            incomplete,
        };
        output.file = Some(match path {
            None => standard_output().map_err(|error| output.cannot_write(error))?,
            // Nothing was touched yet, so that there is no more to say.
            Some(path) => output
                .open_path(path)
                .map_err(|error| Failure::file("write", &output.name, error))?,
        });
        Ok(output)
    }

    fn open_path(&mut self, path: &Path) -> io::Result<File> {
        let target = end_of_links(path)?;
        let old = match fs::metadata(&target) {
            Ok(old) if !old.is_file() => return OpenOptions::new().write(true).open(&target),
            Ok(old) => {
                // A file that may not be written is not replaced either, though its folder would allow it.
                OpenOptions::new().write(true).open(&target)?;
                Some(old.permissions())
            }
            Err(error) if error.kind() == ErrorKind::NotFound => None,
            Err(error) => return Err(error),
        };
        let (half_written, file) = create_beside(&target)?;
        // From here on it is removed where something fails.
        self.replaced = Some(Replaced {
            half_written,
            target,
        });
        if let Some(permissions) = old {
            file.set_permissions(permissions)?;
        }
        Ok(file)
    }

    /// Writes all of the bytes.
    pub fn write(&mut self, bytes: &[u8]) -> Result<(), Failure> {
        let file = self.file.as_ref().expect("it is open until it is finished");
        write_all(file, bytes).map_err(|error| self.cannot_write(error))
    }

    /// Puts a file in its place, where it lasts; closes the output.
    pub fn finish(mut self) -> Result<(), Failure> {
        let file = self.file.take().expect("it is finished once");
        let Some(Replaced {
            half_written,
            target,
        }) = &self.replaced
        else {
            return system::close_file(file).map_err(|error| self.cannot_write(error));
        };
        let placed = file
            .sync_all()
            .and_then(|()| system::close_file(file))
            .and_then(|()| fs::rename(half_written, target));
        placed.map_err(|error| self.cannot_write(error))?;
        let folder = folder_of(target);
        // Nothing is left to be removed.
        self.replaced = None;
        system::keep();
        sync_folder(&folder).map_err(|error| {
            let (name, words) = (&self.name, words(&error));
            Failure::Files(format!(
                "{name} is written, but may not outlast a crash: cannot sync its folder: {words}"
            ))
        })
    }

    fn cannot_write(&self, error: io::Error) -> Failure {
        let (name, words) = (&self.name, words(&error));
        self.failure(format!("cannot write {name}: {words}"))
    }

    /// What is to be said where something went wrong, here or with an input, so that the output is not finished.
    pub fn failure(&self, why: String) -> Failure {
        Failure::Files(match self.replaced {
            Some(_) => format!("{why}: {} is as it was", self.name),
            None => format!("{}: {why}", self.incomplete),
        })
    }
}

/// An output that is not finished leaves nothing behind.
impl Drop for Output {
    fn drop(&mut self) {
        if let Some(replaced) = &self.replaced {
            // Where it cannot be removed, the failure that led here has been told, and is the one that matters.
            let _ = fs::remove_file(&replaced.half_written);
            system::keep();
        }
    }
}

/// Rust's own handle of it would keep lines back, and take no notice of a descriptor that cannot be written.
fn standard_output() -> io::Result<File> {
    if system::stdout_is_closed() {
        return Err(system::not_open());
    }
    Ok(io::stdout().as_fd().try_clone_to_owned()?.into())
}

/// Writes all of the bytes: again where a signal came between, later where the output is not ready.
fn write_all(mut file: &File, mut bytes: &[u8]) -> io::Result<()> {
    while !bytes.is_empty() {
        match file.write(bytes) {
            Ok(0) => return Err(ErrorKind::WriteZero.into()),
            Ok(count) => bytes = &bytes[count..],
            Err(error) if error.kind() == ErrorKind::Interrupted => {}
            Err(error) if error.kind() == ErrorKind::WouldBlock => {
                system::wait_until(Ready::Write, file)
            }
            Err(error) => return Err(error),
        }
    }
    Ok(())
}

/// The path that symbolic links lead to, whether there is a file or not.
fn end_of_links(path: &Path) -> io::Result<PathBuf> {
    let mut path = path.to_owned();
    for _ in 0..MOST_LINKS {
        match fs::read_link(&path) {
            Ok(next) => path = folder_of(&path).join(next),
            Err(_) => return Ok(path),
        }
    }
    // The system's own words for too many of them.
    fs::metadata(&path).map(|_| path)
}

fn folder_of(path: &Path) -> PathBuf {
    match path.parent() {
        Some(folder) if !folder.as_os_str().is_empty() => folder.to_owned(),
        _ => PathBuf::from("."),
    }
}

/// A new file in the folder of another one.
fn create_beside(target: &Path) -> io::Result<(PathBuf, File)> {
    let name = target.file_name().ok_or_else(system::no_such_file)?;
    if target.as_os_str().as_bytes().ends_with(b"/") {
        return Err(system::no_such_file());
    }
    let name = &name.as_bytes()[..name.len().min(MOST_OF_NAME)];
    let process = std::process::id();
    let mut count = 0;
    loop {
        // In a folder that several machines share, a process of another one may have the same number.
        let suffix = match count {
            0 => format!(".partial-{process}"),
            _ => format!(".partial-{process}-{count}"),
        };
        let path = folder_of(target).join(OsString::from_vec([name, suffix.as_bytes()].concat()));
        match create(&path) {
            Ok(file) => return Ok((path, file)),
            Err(error) if error.kind() == ErrorKind::AlreadyExists && count < 100 => count += 1,
            Err(error) => return Err(error),
        }
    }
}

fn create(path: &Path) -> io::Result<File> {
    let for_handler = CString::new(path.as_os_str().as_bytes())?;
    system::create_half_written(for_handler, || {
        OpenOptions::new().write(true).create_new(true).open(path)
    })
}

/// Makes a renaming last. Where a folder cannot be opened for reading, or its file system knows no such thing, there is nothing to be done.
fn sync_folder(folder: &Path) -> io::Result<()> {
    match File::open(folder).and_then(|folder| folder.sync_all()) {
        Err(error)
            if matches!(
                error.kind(),
                ErrorKind::PermissionDenied | ErrorKind::InvalidInput | ErrorKind::Unsupported
            ) =>
        {
            Ok(())
        }
        result => result,
    }
}
