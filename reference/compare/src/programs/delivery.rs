//! How a program is given its input.

use super::faults::Faults;
use super::scratch::Scratch;
use std::fs::File;
use std::io::{self, Write};
use std::process::{ChildStdin, Stdio};
use std::sync::Arc;
use std::thread;
use std::time::Duration;

#[derive(Clone, Copy, Debug, PartialEq, Eq)]
pub enum Delivery {
    File,
    /// By its name, as the program's word.
    Named,
    Pipe,
    PipeByBytes,
    /// A file, with calls that are interrupted and move few bytes.
    Interrupted,
}

/// Longest input that is written a byte at a time, which takes long.
const BY_BYTES: usize = 2_900;

impl Delivery {
    pub const ALL: [Delivery; 5] = [
        Delivery::File,
        Delivery::Named,
        Delivery::Pipe,
        Delivery::PipeByBytes,
        Delivery::Interrupted,
    ];

    pub fn name(self) -> &'static str {
        match self {
            Delivery::File => "as a file",
            Delivery::Named => "as a named file",
            Delivery::Pipe => "through a pipe",
            Delivery::PipeByBytes => "a byte at a time",
            Delivery::Interrupted => "by interrupted calls",
        }
    }

    /// Whether an input of that length is delivered so.
    pub fn takes(self, length: usize, scratch: &Scratch) -> bool {
        match self {
            Delivery::PipeByBytes => length <= BY_BYTES,
            Delivery::Interrupted => scratch.faults().is_ok(),
            Delivery::File | Delivery::Named | Delivery::Pipe => true,
        }
    }

    /// The words of the program, where the file of this name holds its input.
    pub fn words(self, file: &str) -> Vec<&[u8]> {
        match self {
            Delivery::Named => vec![file.as_bytes()],
            _ => vec![],
        }
    }

    /// The input of a program to be started.
    pub fn stdio(self, scratch: &Scratch, file: &str) -> io::Result<Stdio> {
        match self {
            Delivery::File | Delivery::Interrupted => {
                Ok(Stdio::from(File::open(scratch.folder().join(file))?))
            }
            Delivery::Named => Ok(Stdio::null()),
            Delivery::Pipe | Delivery::PipeByBytes => Ok(Stdio::piped()),
        }
    }

    /// The calls that are to go wrong, for so many bytes in and out.
    pub fn faults(self, input: usize, output: usize) -> Faults {
        match self {
            Delivery::Interrupted => Faults::interrupted(input, output),
            _ => Faults::NONE,
        }
    }

    /// Writes the input into a pipe and closes it, while the program reads.
    /// A program may end ahead of its input, so a failed write is no fault.
    pub fn feed(self, mut pipe: ChildStdin, input: &Arc<[u8]>) {
        let input = Arc::clone(input);
        thread::spawn(move || match self {
            Delivery::PipeByBytes => write_bytes(pipe, &input),
            _ => pipe.write_all(&input),
        });
    }
}

/// Writes bytes one by one, with time enough for the program to have begun
/// to read, and then to read each byte alone.
fn write_bytes(mut pipe: ChildStdin, input: &[u8]) -> io::Result<()> {
    thread::sleep(Duration::from_millis(3));
    for byte in input.chunks(1) {
        pipe.write_all(byte)?;
        pipe.flush()?;
        thread::sleep(Duration::from_micros(1));
    }
    Ok(())
}
