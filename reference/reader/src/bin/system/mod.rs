//! The system itself, for the programs: their only way to it.
//!
//! A program begins at C's `main`, ahead of which Rust's own start would open
//! closed descriptors and ignore SIGPIPE; so it meets the system as a program
//! in C does.

use reader::{Program, System};
use std::ffi::{c_int, OsStr};
use std::fs::File;
use std::io::{self, Read, Write};
use std::mem::ManuallyDrop;
use std::os::fd::{FromRawFd, RawFd};
use std::os::unix::ffi::{OsStrExt, OsStringExt};

const STANDARD_INPUT: RawFd = 0;
const STANDARD_OUTPUT: RawFd = 1;
const STANDARD_ERROR: RawFd = 2;

extern "C" {
    /// Rust has no closing that tells whether it failed.
    fn close(descriptor: c_int) -> c_int;
}

/// Files that the system closes at the program's end.
struct Descriptors {
    input: ManuallyDrop<File>,
    output: ManuallyDrop<File>,
    error: ManuallyDrop<File>,
}

/// The file of a descriptor that the program was started with.
fn given(descriptor: RawFd) -> ManuallyDrop<File> {
    // Safe: one file for each, never closed but by `close_output`, after
    // which nothing is written.
    ManuallyDrop::new(unsafe { File::from_raw_fd(descriptor) })
}

impl System for Descriptors {
    fn open(&mut self, name: &[u8]) -> io::Result<()> {
        self.input = ManuallyDrop::new(File::open(OsStr::from_bytes(name))?);
        Ok(())
    }

    fn read(&mut self, block: &mut [u8]) -> io::Result<usize> {
        self.input.read(block)
    }

    fn write(&mut self, bytes: &[u8]) -> io::Result<usize> {
        self.output.write(bytes)
    }

    fn close_output(&mut self) -> io::Result<()> {
        match unsafe { close(STANDARD_OUTPUT) } {
            0 => Ok(()),
            _ => Err(io::Error::last_os_error()),
        }
    }

    fn say(&mut self, line: &[u8]) {
        let _ = self.error.write_all(line);
    }
}

/// Runs a program; answers its exit status.
pub fn main(program: Program) -> c_int {
    let words = std::env::args_os().skip(1).map(OsStringExt::into_vec);
    let words: Vec<Vec<u8>> = words.collect();
    let mut system = Descriptors {
        input: given(STANDARD_INPUT),
        output: given(STANDARD_OUTPUT),
        error: given(STANDARD_ERROR),
    };
    program.start(&words, &mut system) as c_int
}
