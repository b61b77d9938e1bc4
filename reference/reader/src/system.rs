//! What the programs ask of the system. Its answers decide the rest of a run,
//! so that a test can give any.

use std::io::{self, ErrorKind, Read, Write};

pub trait System {
    /// Opens a file as the input, instead of standard input.
    fn open(&mut self, name: &[u8]) -> io::Result<()>;

    /// Reads from the input. 0 bytes are its end.
    fn read(&mut self, block: &mut [u8]) -> io::Result<usize>;

    /// Writes to standard output, some of the bytes at least.
    fn write(&mut self, bytes: &[u8]) -> io::Result<usize>;

    /// Closes standard output.
    fn close_output(&mut self) -> io::Result<()>;

    /// Writes to standard error. If that fails, nobody can be told.
    fn say(&mut self, line: &[u8]);
}

/// Writes all bytes to standard output, in as many calls as it takes.
pub fn write_all(mut bytes: &[u8], system: &mut impl System) -> io::Result<()> {
    while !bytes.is_empty() {
        match system.write(bytes) {
            Ok(0) => return Err(ErrorKind::WriteZero.into()),
            Ok(length) => bytes = &bytes[length..],
            Err(error) if error.kind() == ErrorKind::Interrupted => {}
            Err(error) => return Err(error),
        }
    }
    Ok(())
}

/// A system that has nothing but an input and an output.
pub struct Streams<I, O>(pub I, pub O);

impl<I: Read, O: Write> System for Streams<I, O> {
    fn open(&mut self, _: &[u8]) -> io::Result<()> {
        Err(ErrorKind::NotFound.into())
    }

    fn read(&mut self, block: &mut [u8]) -> io::Result<usize> {
        self.0.read(block)
    }

    fn write(&mut self, bytes: &[u8]) -> io::Result<usize> {
        let written = self.1.write(bytes)?;
        self.1.flush()?;
        Ok(written)
    }

    fn close_output(&mut self) -> io::Result<()> {
        Ok(())
    }

    fn say(&mut self, _: &[u8]) {}
}
