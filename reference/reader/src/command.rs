//! A program as it is started: its words, its messages and its exit status.

use crate::message::{self, about, text};
use crate::program::{run_reply, Failure, Program};
use crate::refusal::Refused;
use crate::system::{write_all, System};
use crate::words::{asked, Asked, Input};
use std::io::{self, ErrorKind};

/// The system's number for a descriptor that is not open.
const EBADF: i32 = 9;

/// Closes standard output. One that was not open has lost nothing, and an
/// interrupted closing has closed it.
fn close(system: &mut impl System) -> io::Result<()> {
    match system.close_output() {
        Err(error) if error.raw_os_error() == Some(EBADF) => Ok(()),
        Err(error) if error.kind() == ErrorKind::Interrupted => Ok(()),
        closed => closed,
    }
}

/// The exit status.
#[derive(Clone, Copy, Debug, PartialEq, Eq)]
pub enum Status {
    /// The whole input was read, or a whole reply, or the words asked for a
    /// text.
    Whole = 0,
    /// A line was refused, or a pattern of a stream, or there was no whole
    /// reply.
    Refused = 1,
    WrongWords = 2,
    SystemFailed = 3,
}

impl Program {
    /// The program, started with these words.
    pub fn start(self, words: &[Vec<u8>], system: &mut impl System) -> Status {
        match asked(self, words) {
            Asked::Help => self.print(&message::help(self), system),
            Asked::Version => self.print(&message::version(self), system),
            Asked::Input(input) => self.list(input, |system| self.run(system), system),
            Asked::Reply(expected, input) => {
                self.list(input, |system| run_reply(expected, system), system)
            }
            Asked::TooLong => {
                system.say(&about(self, b"argument", "File name too long"));
                Status::SystemFailed
            }
            Asked::Wrong => {
                system.say(message::usage(self).as_bytes());
                Status::WrongWords
            }
        }
    }

    fn print(self, text: &str, system: &mut impl System) -> Status {
        let written = write_all(text.as_bytes(), system).and_then(|()| close(system));
        match written {
            Ok(()) => Status::Whole,
            Err(error) => self.not_written(&error, system),
        }
    }

    /// Reads the input and prints its listing, which `run` does.
    fn list<S: System>(
        self,
        input: Input,
        run: impl FnOnce(&mut S) -> Result<Option<Refused>, Failure>,
        system: &mut S,
    ) -> Status {
        if let Input::File(name) = input {
            if let Err(error) = system.open(name) {
                return self.not_read(input, &error, system);
            }
        }
        let refused = match run(system) {
            Ok(refused) => refused,
            Err(Failure::Read(error)) => return self.not_read(input, &error, system),
            Err(Failure::Write(error)) => return self.not_written(&error, system),
        };
        if let Err(error) = close(system) {
            return self.not_written(&error, system);
        }
        match refused {
            None => Status::Whole,
            Some(refused) => {
                system.say(&about(self, input.name(), &refused.to_string()));
                Status::Refused
            }
        }
    }

    fn not_read(self, input: Input, error: &io::Error, system: &mut impl System) -> Status {
        system.say(&about(self, input.name(), &text(error)));
        Status::SystemFailed
    }

    /// Nothing is said of a reader that went away.
    fn not_written(self, error: &io::Error, system: &mut impl System) -> Status {
        if error.kind() != ErrorKind::BrokenPipe {
            system.say(&about(self, b"standard output", &text(error)));
        }
        Status::SystemFailed
    }
}
