//! Programs that are wrong in one way each, for the tests of the comparison.
//! The folder in which one is started names what is wrong with it, its own
//! name the program that it stands for: `.../writes-twice/station`.

#![forbid(unsafe_code)]

use reader::{Program, System};
use std::ffi::OsStr;
use std::fs::File;
use std::io::{self, ErrorKind, Read, Write};
use std::os::fd::AsFd;
use std::os::unix::ffi::{OsStrExt, OsStringExt};
use std::path::Path;
use std::process::ExitCode;
use std::time::Duration;

struct Wrong {
    way: String,
    file: Option<Vec<u8>>,
    input: Box<dyn Read>,
    output: File,
    /// The beginning of a line that has not ended.
    begun: Vec<u8>,
    said: bool,
    /// Interruptions of a call in a row.
    interruptions: usize,
}

/// Interruptions after which a call is not tried again.
const PATIENCE: usize = 2;

impl Wrong {
    fn is(&self, way: &str) -> bool {
        self.way == way
    }

    fn read_anew(&mut self) -> io::Result<()> {
        if let Some(name) = &self.file {
            self.input = Box::new(File::open(OsStr::from_bytes(name))?);
        }
        Ok(())
    }

    /// What a call answered, but no more than so many interruptions in a row.
    fn give_up(&mut self, answer: io::Result<usize>) -> io::Result<usize> {
        self.interruptions = match was_interrupted(&answer) {
            true => self.interruptions + 1,
            false => 0,
        };
        match self.interruptions > PATIENCE {
            true => Err(io::Error::other("interrupted too often")),
            false => answer,
        }
    }

    /// Writes to standard output, or where it is wrong to.
    fn put(&mut self, bytes: &[u8]) -> io::Result<usize> {
        match self.is("lists-on-standard-error") {
            true => io::stderr().write(bytes),
            false => self.output.write(bytes),
        }
    }

    /// Whole lines only. The beginning of one is dropped when more comes.
    fn read_forgetting(&mut self, block: &mut [u8]) -> io::Result<usize> {
        loop {
            let length = self.input.read(block)?;
            if length == 0 {
                let begun = std::mem::take(&mut self.begun);
                block[..begun.len()].copy_from_slice(&begun);
                return Ok(begun.len());
            }
            let feed = block[..length].iter().rposition(|&byte| byte == b'\n');
            let whole = feed.map_or(0, |feed| feed + 1);
            self.begun = block[whole..length].to_vec();
            if whole > 0 {
                return Ok(whole);
            }
        }
    }
}

fn was_interrupted(answer: &io::Result<usize>) -> bool {
    matches!(answer, Err(error) if error.kind() == ErrorKind::Interrupted)
}

impl System for Wrong {
    fn open(&mut self, name: &[u8]) -> io::Result<()> {
        self.file = Some(name.to_vec());
        self.read_anew()
    }

    fn read(&mut self, block: &mut [u8]) -> io::Result<usize> {
        if self.is("opens-anew") {
            self.read_anew()?;
        }
        let read = match self.is("forgets") {
            true => self.read_forgetting(block),
            false => self.input.read(block),
        };
        let interrupted = was_interrupted(&read);
        match &read {
            Err(_) if self.is("hangs-after-a-failed-read") => loop {
                std::thread::sleep(Duration::from_secs(1));
            },
            Err(_) if self.is("takes-a-failed-read-for-the-end") => Ok(0),
            _ if interrupted && self.is("takes-an-interrupted-read-for-the-end") => Ok(0),
            _ if self.is("gives-up-reading") => self.give_up(read),
            Err(error) if self.is("fails-when-interrupted") => {
                Err(io::Error::other(error.to_string()))
            }
            _ => read,
        }
    }

    fn write(&mut self, bytes: &[u8]) -> io::Result<usize> {
        if self.is("speaks") && !self.said {
            self.say(b"working\n");
        }
        if self.is("writes-twice") {
            self.output.write_all(bytes)?;
        }
        let mut written = self.put(bytes);
        while self.is("insists") && matches!(written, Ok(0)) {
            written = self.put(bytes);
        }
        match written {
            Ok(_) if self.is("drops-the-rest-of-a-write") => Ok(bytes.len()),
            _ if self.is("gives-up-writing") => self.give_up(written),
            _ => written,
        }
    }

    fn close_output(&mut self) -> io::Result<()> {
        Ok(())
    }

    fn say(&mut self, line: &[u8]) {
        self.said = true;
        if !self.is("silent") {
            let _ = io::stderr().write_all(line);
        }
    }
}

fn main() -> ExitCode {
    let mut words = std::env::args_os();
    let path = words.next().unwrap_or_default();
    let words: Vec<Vec<u8>> = words.map(OsStringExt::into_vec).collect();
    let part = |path: &Path| path.file_name().map(OsStr::to_os_string);
    let way = Path::new(&path).parent().and_then(part).unwrap_or_default();
    let name = part(Path::new(&path)).unwrap_or_default();
    let program = Program::ALL
        .into_iter()
        .find(|program| name == program.name());
    let output = io::stdout().as_fd().try_clone_to_owned();
    let Ok(output) = output else {
        return ExitCode::FAILURE;
    };
    let mut system = Wrong {
        way: way.to_string_lossy().into_owned(),
        file: None,
        input: Box::new(io::stdin()),
        output: File::from(output),
        begun: Vec::new(),
        said: false,
        interruptions: 0,
    };
    let status = program.map(|program| program.start(&words, &mut system));
    match status {
        Some(_) if system.is("no-status") => ExitCode::SUCCESS,
        Some(status) => ExitCode::from(status as u8),
        None => ExitCode::FAILURE,
    }
}
