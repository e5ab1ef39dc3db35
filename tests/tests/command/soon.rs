//! What could wait forever fails the test instead.

use std::fs::File;
use std::io::Read;
use std::sync::mpsc;
use std::thread;
use std::time::Duration;

const LONGEST: Duration = Duration::from_secs(30);

/// What some work gives, where it ends soon.
#[track_caller]
pub fn soon<T: Send + 'static>(what: &str, work: impl FnOnce() -> T + Send + 'static) -> T {
    let (sender, receiver) = mpsc::channel();
    // The test that would take it may have failed already.
    thread::spawn(move || drop(sender.send(work())));
    let given = receiver.recv_timeout(LONGEST);
    given.unwrap_or_else(|_| panic!("{what}: nothing happens"))
}

/// The next bytes of a file, as many as these or all that there are, and the file.
#[track_caller]
pub fn read_soon(mut file: File, most: u64) -> (Vec<u8>, File) {
    soon("bytes to read", move || {
        let mut bytes = Vec::new();
        let read = file.by_ref().take(most).read_to_end(&mut bytes);
        read.expect("it can be read");
        (bytes, file)
    })
}
