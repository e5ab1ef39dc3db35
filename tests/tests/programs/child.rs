//! A program and what goes in and out of it, through a pipe where nothing else is said. None may run
//! forever: one that doesn't end is stopped, and the test fails.

use std::fs;
use std::io::{ErrorKind, Read, Write};
use std::os::fd::AsRawFd;
use std::path::Path;
use std::process::{self, ChildStderr, ChildStdin, ChildStdout, Command, ExitStatus, Stdio};
use std::sync::mpsc::{self, Receiver};
use std::thread;
use std::time::{Duration, Instant};

const LONGEST: Duration = Duration::from_secs(120);

pub struct Child {
    process: process::Child,
    input: Option<ChildStdin>,
    output: Option<Receiver<Vec<u8>>>,
    errors: Receiver<Vec<u8>>,
}

/// How a program ended, what it wrote and what it said to standard error.
pub struct Ending {
    pub status: ExitStatus,
    pub output: Vec<u8>,
    pub errors: String,
}

/// All bytes of a stream, taken as they come so that the program never waits for its reader.
fn collect(mut stream: impl Read + Send + 'static) -> Receiver<Vec<u8>> {
    let (sender, receiver) = mpsc::channel();
    thread::spawn(move || {
        let mut bytes = Vec::new();
        stream.read_to_end(&mut bytes).expect("a pipe can be read");
        // The test that would take them may have failed already.
        let _ = sender.send(bytes);
    });
    receiver
}

impl Child {
    pub fn start(program: &Path) -> Child {
        Child::start_command(&mut Command::new(program))
    }

    /// Starts a command and collects its output.
    pub fn start_command(command: &mut Command) -> Child {
        Child::start_on(command, Stdio::piped())
    }

    /// The same with this for its input.
    pub fn start_on(command: &mut Command, input: impl Into<Stdio>) -> Child {
        let mut child = Child::spawn_on(command.stdout(Stdio::piped()), input);
        child.collect_through(|output| output);
        child
    }

    /// Starts a command whose output is dealt with by the caller.
    pub fn spawn(command: &mut Command) -> Child {
        Child::spawn_on(command, Stdio::piped())
    }

    /// The same with this for its input.
    pub fn spawn_on(command: &mut Command, input: impl Into<Stdio>) -> Child {
        let command = command.stdin(input).stderr(Stdio::piped());
        let mut process = command
            .spawn()
            .unwrap_or_else(|error| panic!("{command:?}: {error}"));
        let errors: ChildStderr = process.stderr.take().expect("it is piped");
        Child {
            input: process.stdin.take(),
            process,
            output: None,
            errors: collect(errors),
        }
    }

    pub fn take_output(&mut self) -> ChildStdout {
        self.process.stdout.take().expect("it is piped")
    }

    /// Collects the output by a reader of some sort.
    pub fn collect_through<R: Read + Send + 'static>(&mut self, reader: impl Fn(ChildStdout) -> R) {
        let output = self.take_output();
        self.output = Some(collect(reader(output)));
    }

    /// Whether the program took the bytes: it needn't, once it has answered.
    pub fn offer(&mut self, bytes: &[u8]) -> bool {
        match self.input.as_mut().expect("it is open").write_all(bytes) {
            Ok(()) => true,
            Err(error) if error.kind() == ErrorKind::BrokenPipe => false,
            Err(error) => panic!("{error}"),
        }
    }

    pub fn write(mut self, bytes: &[u8]) -> Child {
        self.offer(bytes);
        self
    }

    pub fn end_input(&mut self) {
        self.input = None;
    }

    /// Waits until the program has taken all that was written, so that what is written next comes
    /// to it in another piece.
    pub fn wait_until_taken(&mut self) {
        let input = self.input.as_ref().expect("it is open").as_raw_fd();
        let start = Instant::now();
        loop {
            let mut waiting = 0;
            // SAFETY: FIONREAD stores one int.
            let status = unsafe { ioctl(input, FIONREAD, &mut waiting) };
            assert_eq!(status, 0, "a pipe tells how much is in it");
            if waiting == 0 || self.has_ended() {
                return;
            }
            assert!(
                start.elapsed() < LONGEST,
                "the program doesn't read its input"
            );
            thread::yield_now();
        }
    }

    fn has_ended(&mut self) -> bool {
        self.process
            .try_wait()
            .expect("it can be waited for")
            .is_some()
    }

    /// The most memory that the program has had so far, in KiB; none when it has ended.
    pub fn peak(&self) -> Option<u64> {
        let status = fs::read_to_string(format!("/proc/{}/status", self.process.id())).ok()?;
        let line = status.lines().find(|line| line.starts_with("VmHWM:"))?;
        line.split_whitespace().nth(1)?.parse().ok()
    }

    /// The processor time that the program has taken so far, its own and the system's; and whether it
    /// runs at this moment, or would if there were a processor for it.
    pub fn work(&self) -> (Duration, bool) {
        let path = format!("/proc/{}/stat", self.process.id());
        let stat = fs::read_to_string(path).expect("nobody has waited for its end");
        // The name, in parentheses, is the second field, the state the third; the times are the 14th
        // and the 15th.
        let (_, fields) = stat.rsplit_once(')').expect("it has a name");
        let fields: Vec<&str> = fields.split_whitespace().collect();
        let ticks = |time: &str| Duration::from_secs(time.parse().unwrap()) / TICKS_PER_SECOND;
        (ticks(fields[11]) + ticks(fields[12]), fields[0] == "R")
    }

    pub fn signal(&mut self, number: i32) {
        assert!(!self.has_ended(), "the program has ended");
        // SAFETY: kill touches no memory, and the number is the child's until its end is known.
        let status = unsafe { kill(self.process.id() as i32, number) };
        assert_eq!(status, 0, "a child can be sent a signal");
    }

    /// Ends the input; all of the output, of a program that ended well and had nothing to say.
    #[track_caller]
    pub fn end(mut self) -> Vec<u8> {
        self.end_input();
        self.stopped()
    }

    /// The output of a program that ends by itself, though its input is still open.
    #[track_caller]
    pub fn stopped(self) -> Vec<u8> {
        let ending = self.rest();
        assert!(ending.status.success(), "{}", ending.status);
        assert_eq!(ending.errors, "");
        ending.output
    }

    /// Ends the input; how the program ends, however that is.
    #[track_caller]
    pub fn ending(mut self) -> Ending {
        self.end_input();
        self.rest()
    }

    /// The output is empty if it went elsewhere.
    #[track_caller]
    fn rest(mut self) -> Ending {
        let output = self.output.take().map_or(Vec::new(), |output| {
            output.recv_timeout(LONGEST).unwrap_or_else(|_| {
                let _ = self.process.kill();
                panic!("the program doesn't end");
            })
        });
        let (status, errors) = self.outcome();
        Ending {
            status,
            output,
            errors: String::from_utf8_lossy(&errors).into_owned(),
        }
    }

    /// How the program ended, and what it said to standard error.
    #[track_caller]
    pub fn outcome(&mut self) -> (ExitStatus, Vec<u8>) {
        let start = Instant::now();
        let status = loop {
            if let Some(status) = self.process.try_wait().expect("it can be waited for") {
                break status;
            }
            if start.elapsed() > LONGEST {
                let _ = self.process.kill();
                panic!("the program doesn't end");
            }
            thread::sleep(Duration::from_micros(200));
        };
        (status, self.errors.recv().expect("the program has ended"))
    }
}

const FIONREAD: u64 = 0x541b;

/// Of the times in /proc, whatever the kernel counts by itself.
const TICKS_PER_SECOND: u32 = 100;

unsafe extern "C" {
    fn kill(process: i32, signal: i32) -> i32;
    fn ioctl(descriptor: i32, request: u64, argument: *mut i32) -> i32;
}
