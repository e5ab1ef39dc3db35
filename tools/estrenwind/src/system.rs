//! The few calls of the C library that Rust's own does not offer, declared by hand.

use std::ffi::{c_char, c_int, c_short, c_ulong, CString};
use std::fs::File;
use std::io;
use std::os::fd::{AsRawFd, IntoRawFd, RawFd};
use std::ptr;
use std::sync::atomic::{AtomicBool, AtomicPtr, Ordering};

// ---- descriptors that were closed at the start

static INPUT_CLOSED: AtomicBool = AtomicBool::new(false);
static OUTPUT_CLOSED: AtomicBool = AtomicBool::new(false);

/// Rust's runtime opens /dev/null in the place of standard descriptors that are closed. After that, `>&-` could not be told from `>/dev/null`,
/// and everything would be lost in silence. The loader calls what stands in this section before the runtime starts.
#[used]
#[link_section = ".init_array"]
static BEFORE_MAIN: extern "C" fn() = look_at_descriptors;

extern "C" fn look_at_descriptors() {
    for (descriptor, closed) in [(0, &INPUT_CLOSED), (1, &OUTPUT_CLOSED)] {
        // SAFETY: F_GETFD touches no memory, and fails where there is no such descriptor.
        if unsafe { fcntl(descriptor, F_GETFD) } < 0 {
            closed.store(true, Ordering::Relaxed);
        }
    }
}

/// Whether the command was started without a standard input.
pub fn stdin_is_closed() -> bool {
    INPUT_CLOSED.load(Ordering::Relaxed)
}

/// Whether the command was started without a standard output.
pub fn stdout_is_closed() -> bool {
    OUTPUT_CLOSED.load(Ordering::Relaxed)
}

/// The error of a descriptor that is not open.
pub fn not_open() -> io::Error {
    io::Error::from_raw_os_error(EBADF)
}

/// The error of a file that is not there.
pub fn no_such_file() -> io::Error {
    io::Error::from_raw_os_error(ENOENT)
}

// ---- waiting and closing

/// What a descriptor is waited for.
#[derive(Clone, Copy)]
pub enum Ready {
    Read,
    Write,
}

/// Waits until a non-blocking descriptor can be read or written. The call that is tried again then says what is wrong with it, if anything.
pub fn wait_until(ready: Ready, file: &File) {
    let events = match ready {
        Ready::Read => POLLIN,
        Ready::Write => POLLOUT,
    };
    let mut wanted = PollDescriptor {
        descriptor: file.as_raw_fd(),
        events,
        returned: 0,
    };
    // SAFETY: one entry, which lives until the call returns. An interrupted wait is a short one: the caller tries again.
    unsafe { poll(&mut wanted, 1, -1) };
}

/// Closes a file and gives the error of it, which network file systems may keep until then. Rust's own closing drops it.
pub fn close_file(file: File) -> io::Result<()> {
    let descriptor = file.into_raw_fd();
    // SAFETY: the descriptor was the file's, which has given it away.
    match unsafe { close(descriptor) } {
        0 => Ok(()),
        _ => match io::Error::last_os_error() {
            // On Linux the descriptor is closed all the same.
            error if error.kind() == io::ErrorKind::Interrupted => Ok(()),
            error => Err(error),
        },
    }
}

// ---- a terminal's width

/// The columns of the terminal that standard error is, where it says so.
pub fn terminal_columns() -> Option<usize> {
    let mut size = WindowSize::default();
    // SAFETY: TIOCGWINSZ stores one such structure.
    let status = unsafe { ioctl(2, TIOCGWINSZ, &mut size) };
    (status == 0 && size.columns > 0).then_some(size.columns.into())
}

// ---- the half-written file and signals

/// Signals that end the command and that people or a farm's scheduler send.
const ENDING: [c_int; 4] = [SIGHUP, SIGINT, SIGQUIT, SIGTERM];

/// The path of the half-written file, null where there is none. What it points to is never freed, since a handler may be reading it.
static HALF_WRITTEN: AtomicPtr<c_char> = AtomicPtr::new(ptr::null_mut());

/// Removes the half-written file, and lets the signal do what it does by default. Only calls that are allowed in a handler.
extern "C" fn remove_and_end(number: c_int) {
    let path = HALF_WRITTEN.load(Ordering::SeqCst);
    // SAFETY: the path is null or a string that lives forever; unlink, signal and raise may be called in a handler. The signal that is raised
    // waits until the handler returns, and ends the process then.
    unsafe {
        if !path.is_null() {
            unlink(path);
        }
        signal(number, SIG_DFL);
        raise(number);
    }
}

/// Creates a file by `create`, to be removed if a signal ends the command, until [`keep`] is called. Signals wait for as long as the file is
/// there and the handler does not know it.
pub fn create_half_written(
    path: CString,
    create: impl FnOnce() -> io::Result<File>,
) -> io::Result<File> {
    let before = block_signals();
    let file = create();
    if file.is_ok() {
        for number in ENDING {
            // SAFETY: the handler is as its type says. A signal that is ignored, as nohup has SIGHUP, stays ignored.
            unsafe {
                if signal(number, remove_and_end as *const () as usize) == SIG_IGN {
                    signal(number, SIG_IGN);
                }
            }
        }
        HALF_WRITTEN.store(path.into_raw(), Ordering::SeqCst);
    }
    restore_signals(before);
    file
}

/// There is no half-written file any more: it has been renamed or removed.
pub fn keep() {
    HALF_WRITTEN.store(ptr::null_mut(), Ordering::SeqCst);
}

/// A write past a limit on the size of files fails then, and does not end the command.
pub fn ignore_size_limit_signal() {
    // SAFETY: no handler is set.
    unsafe { signal(SIGXFSZ, SIG_IGN) };
}

fn block_signals() -> SignalSet {
    let mut blocked = SignalSet([0; 16]);
    for number in ENDING {
        blocked.0[0] |= 1 << (number - 1);
    }
    let mut before = SignalSet([0; 16]);
    // SAFETY: both sets are as long as the C library's. The command has one thread.
    unsafe { sigprocmask(SIG_BLOCK, &blocked, &mut before) };
    before
}

fn restore_signals(before: SignalSet) {
    // SAFETY: the set is as long as the C library's, and null is allowed where the set before is not asked for.
    unsafe { sigprocmask(SIG_SETMASK, &before, ptr::null_mut()) };
}

// ---- as Linux has them on x86-64

const ENOENT: c_int = 2;
const EBADF: c_int = 9;
const F_GETFD: c_int = 1;
const POLLIN: c_short = 1;
const POLLOUT: c_short = 4;
const TIOCGWINSZ: c_ulong = 0x5413;
const SIGHUP: c_int = 1;
const SIGINT: c_int = 2;
const SIGQUIT: c_int = 3;
const SIGTERM: c_int = 15;
const SIGXFSZ: c_int = 25;
const SIG_DFL: usize = 0;
const SIG_IGN: usize = 1;
const SIG_BLOCK: c_int = 0;
const SIG_SETMASK: c_int = 2;

#[repr(C)]
struct PollDescriptor {
    descriptor: RawFd,
    events: c_short,
    returned: c_short,
}

#[repr(C)]
#[derive(Default)]
struct WindowSize {
    rows: u16,
    columns: u16,
    width: u16,
    height: u16,
}

/// 1,024 signals, the first of them the lowest bit.
#[repr(C)]
struct SignalSet([u64; 16]);

unsafe extern "C" {
    fn fcntl(descriptor: c_int, request: c_int, ...) -> c_int;
    fn ioctl(descriptor: c_int, request: c_ulong, ...) -> c_int;
    fn poll(descriptors: *mut PollDescriptor, count: c_ulong, milliseconds: c_int) -> c_int;
    fn close(descriptor: c_int) -> c_int;
    fn unlink(path: *const c_char) -> c_int;
    fn signal(number: c_int, handler: usize) -> usize;
    fn raise(number: c_int) -> c_int;
    fn sigprocmask(how: c_int, set: *const SignalSet, before: *mut SignalSet) -> c_int;
}
