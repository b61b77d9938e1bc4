//! What a program is to do: the separate reader's, started in an imagined
//! system.

use super::ended::End;
use super::errors::EPIPE;
use crate::words::words;
use cases::Case;
use reader::{Program, System};
use std::io::{self, ErrorKind};

const SIGPIPE: i32 = 13;

#[derive(Clone, Debug, PartialEq, Eq)]
pub struct Expected {
    /// On standard output.
    pub printed: Vec<u8>,
    /// On standard error.
    pub said: Vec<u8>,
    /// Whether that is only the beginning of a line, whose rest is a reason
    /// in the program's own words: the system has none.
    pub own_reason: bool,
    pub end: End,
}

/// Bytes of such a reason, its line feed among them, at most.
const LONGEST_REASON: usize = 200;

impl Expected {
    pub fn of(program: Program, words: &[&[u8]], mut system: Imagined) -> Expected {
        let words: Vec<Vec<u8>> = words.iter().map(|word| word.to_vec()).collect();
        let status = program.start(&words, &mut system);
        let end = match system.signal {
            Some(signal) => End::Signal(signal),
            None => End::Status(status as i32),
        };
        let own_reason = system.stopped;
        if own_reason {
            let reason = format!("{}\n", io::Error::from(ErrorKind::WriteZero));
            let beginning = system.said.strip_suffix(reason.as_bytes());
            system.said = beginning.expect("it is said").to_vec();
        }
        Expected {
            printed: system.printed,
            said: system.said,
            own_reason,
            end,
        }
    }

    /// For a case whose input is standard input, with nothing that goes wrong.
    pub fn on(program: Program, case: &Case) -> Expected {
        let words = words(program, case);
        Expected::of(program, &words, Imagined::new(&case.input))
    }

    /// The same for an input, with the words of every run.
    pub fn plain(program: Program, input: &[u8]) -> Expected {
        Expected::of(program, program.words(), Imagined::new(input))
    }

    /// What was to be said by a program that said this.
    pub fn to_be_said(&self, said: &[u8]) -> Vec<u8> {
        if !self.own_reason {
            return self.said.clone();
        }
        let rest = said.strip_prefix(&self.said[..]).unwrap_or_default();
        let reason = match rest.split(|&byte| byte == b'\n').next() {
            None | Some([]) => b"REASON",
            Some(reason) => reason,
        };
        [&self.said, reason, b"\n"].concat()
    }

    /// Bytes that are to be said at most.
    pub fn most_said(&self) -> usize {
        match self.own_reason {
            true => self.said.len() + LONGEST_REASON,
            false => self.said.len(),
        }
    }

    /// Of a program that has no exit status.
    pub fn without_status(mut self) -> Expected {
        if let End::Status(status) = &mut self.end {
            *status = 0;
        }
        self
    }
}

/// A system as far as one run meets it. Errors are the system's numbers.
#[derive(Clone, Default)]
pub struct Imagined<'a> {
    input: &'a [u8],
    /// Why the file cannot be opened.
    pub open_error: Option<i32>,
    /// Why reads fail after the input's bytes, instead of ending.
    pub read_error: Option<i32>,
    /// The bytes that standard output takes, and why writes fail after them.
    pub write_error: Option<(usize, i32)>,
    /// The bytes after which standard output takes nothing, without an error.
    pub stops_at: Option<usize>,
    pub close_error: Option<i32>,
    /// Whether writing to a closed pipe ends the program by a signal.
    pub signals: bool,
    /// Whether standard error is the same as standard output.
    pub joined: bool,
    signal: Option<i32>,
    /// Whether a write has taken nothing.
    stopped: bool,
    printed: Vec<u8>,
    said: Vec<u8>,
}

impl<'a> Imagined<'a> {
    pub fn new(input: &'a [u8]) -> Imagined<'a> {
        Imagined {
            input,
            ..Imagined::default()
        }
    }
}

fn fails(error: Option<i32>) -> io::Result<()> {
    error.map_or(Ok(()), |number| Err(io::Error::from_raw_os_error(number)))
}

impl System for Imagined<'_> {
    fn open(&mut self, _: &[u8]) -> io::Result<()> {
        fails(self.open_error)
    }

    fn read(&mut self, block: &mut [u8]) -> io::Result<usize> {
        let length = block.len().min(self.input.len());
        if length == 0 {
            fails(self.read_error)?;
        }
        let (now, later) = self.input.split_at(length);
        block[..length].copy_from_slice(now);
        self.input = later;
        Ok(length)
    }

    fn write(&mut self, bytes: &[u8]) -> io::Result<usize> {
        let stops_at = self.stops_at.unwrap_or(usize::MAX);
        let bytes = &bytes[..bytes.len().min(stops_at - self.printed.len())];
        if bytes.is_empty() {
            self.stopped = true;
            return Ok(0);
        }
        let (room, error) = self.write_error.unwrap_or((usize::MAX, 0));
        let length = bytes.len().min(room - self.printed.len());
        if length == 0 {
            if self.signals && error == EPIPE {
                self.signal = Some(SIGPIPE);
            }
            fails(Some(error))?;
        }
        self.printed.extend(&bytes[..length]);
        Ok(length)
    }

    fn close_output(&mut self) -> io::Result<()> {
        fails(self.close_error)
    }

    fn say(&mut self, line: &[u8]) {
        match self.joined {
            true => self.printed.extend(line),
            false => self.said.extend(line),
        }
    }
}
