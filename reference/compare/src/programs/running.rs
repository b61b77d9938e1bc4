//! A program under test while it runs. No wait is longer than it should be.

use super::ended::End;
use super::expected::Expected;
use std::io::{self, ErrorKind, Read};
use std::path::Path;
use std::process::{Child, ChildStdin, Command, Stdio};
use std::sync::mpsc::{channel, Receiver, RecvTimeoutError, Sender};
use std::thread;
use std::time::{Duration, Instant};

const BLOCK: usize = 65_536;

/// How long to sleep between two looks at a program that is about to end.
const PAUSE: Duration = Duration::from_micros(50);

pub struct Running {
    child: Child,
    output: Collected,
    error: Collected,
}

/// What a program did.
#[derive(Clone, Debug, PartialEq, Eq)]
pub struct Run {
    pub printed: Vec<u8>,
    pub said: Vec<u8>,
    /// `None`: it was killed at the time limit.
    pub end: Option<End>,
}

/// A program to be started, its output and what it says read from pipes.
pub fn piped(program: &Path) -> Command {
    let mut command = Command::new(program);
    command.stdout(Stdio::piped()).stderr(Stdio::piped());
    command
}

#[derive(Clone, Copy, Debug, PartialEq, Eq)]
pub enum Waited {
    Came,
    /// The output ended first.
    NoMore,
    TooLong,
}

impl Running {
    /// Starts a program. Its output is read from here or, if that is `None`,
    /// from the pipe that the command asks for. It is read no further than
    /// the piece that passes what is expected, so that an endless one ends
    /// too.
    pub fn start(
        mut command: Command,
        output: Option<Box<dyn Read + Send>>,
        expected: &Expected,
    ) -> io::Result<Running> {
        let mut child = command.spawn()?;
        let piped = |pipe| Box::new(pipe) as Box<dyn Read + Send>;
        let output = output.or(child.stdout.take().map(piped));
        let error = child.stderr.take().map(|pipe| Box::new(pipe) as _);
        Ok(Running {
            child,
            output: Collected::begin(output, expected.printed.len()),
            error: Collected::begin(error, expected.most_said()),
        })
    }

    /// The writing end of its input; `None` if that is a file, or was taken.
    pub fn input(&mut self) -> Option<ChildStdin> {
        self.child.stdin.take()
    }

    /// Waits until so many bytes in all have been printed.
    pub fn wait_for(&mut self, bytes: usize, deadline: Instant) -> Waited {
        self.output.wait_for(bytes, deadline)
    }

    /// Waits until the program has ended; kills it at the deadline, and at
    /// once when it has printed or said too much.
    pub fn finish(mut self, deadline: Instant) -> io::Result<Run> {
        let mut in_time = true;
        for collected in [&mut self.output, &mut self.error] {
            in_time &= collected.wait_for(usize::MAX, deadline) != Waited::TooLong;
            if collected.bytes.len() > collected.most {
                self.child.kill()?;
            }
        }
        let end = if in_time { self.end(deadline)? } else { None };
        Ok(Run {
            printed: std::mem::take(&mut self.output.bytes),
            said: std::mem::take(&mut self.error.bytes),
            end,
        })
    }

    fn end(&mut self, deadline: Instant) -> io::Result<Option<End>> {
        while Instant::now() < deadline {
            if let Some(status) = self.child.try_wait()? {
                return Ok(Some(status.into()));
            }
            thread::sleep(PAUSE);
        }
        Ok(None)
    }
}

impl Drop for Running {
    /// Leaves no program running; one that has ended is not harmed.
    fn drop(&mut self) {
        let _ = self.child.kill();
        let _ = self.child.wait();
    }
}

/// What has come from a pipe, and what is still to come.
struct Collected {
    pieces: Receiver<Vec<u8>>,
    bytes: Vec<u8>,
    most: usize,
}

impl Collected {
    fn begin(pipe: Option<Box<dyn Read + Send>>, most: usize) -> Collected {
        let (sender, pieces) = channel();
        // Not joined: a process that the program started may hold the pipe
        // open after the program has ended.
        if let Some(pipe) = pipe {
            thread::spawn(move || send_pieces(pipe, most, &sender));
        }
        Collected {
            pieces,
            bytes: Vec::new(),
            most,
        }
    }

    fn wait_for(&mut self, bytes: usize, deadline: Instant) -> Waited {
        while self.bytes.len() < bytes {
            let left = deadline.saturating_duration_since(Instant::now());
            match self.pieces.recv_timeout(left) {
                Ok(piece) => self.bytes.extend(piece),
                Err(RecvTimeoutError::Timeout) => return Waited::TooLong,
                Err(RecvTimeoutError::Disconnected) => return Waited::NoMore,
            }
        }
        Waited::Came
    }
}

fn send_pieces(mut pipe: impl Read, most: usize, pieces: &Sender<Vec<u8>>) {
    let mut block = vec![0; BLOCK];
    let mut total = 0;
    while total <= most {
        let length = match pipe.read(&mut block) {
            Ok(0) => return,
            Ok(length) => length,
            Err(error) if error.kind() == ErrorKind::Interrupted => continue,
            Err(_) => return,
        };
        // Nobody listens after the time limit.
        if pieces.send(block[..length].to_vec()).is_err() {
            return;
        }
        total += length;
    }
}
