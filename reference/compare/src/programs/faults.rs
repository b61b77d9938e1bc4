//! Calls of the system that do not go smoothly: `faults.c`, compiled and put
//! ahead of the C library.

use std::fmt;
use std::io::{self, Write};
use std::path::Path;
use std::process::{Command, Stdio};

const SOURCE: &str = include_str!("../../faults.c");

/// The compiled file. It is preloaded by this name, from the scratch folder
/// in which all programs are run.
const LIBRARY: &str = "./faults.so";

/// The numbers that the source's own comment explains; `None` does nothing.
#[derive(Clone, Copy, Debug, Default, PartialEq, Eq)]
pub struct Faults {
    pub read_most: Option<usize>,
    pub write_most: Option<usize>,
    pub interrupt: Option<usize>,
    pub read_fails_at: Option<usize>,
    pub write_fails_at: Option<usize>,
    pub write_stops_at: Option<usize>,
    pub close_error: Option<i32>,
}

impl Faults {
    pub const NONE: Faults = Faults {
        read_most: None,
        write_most: None,
        interrupt: None,
        read_fails_at: None,
        write_fails_at: None,
        write_stops_at: None,
        close_error: None,
    };

    /// Every other call is interrupted, the others move few bytes; of long
    /// texts not too few.
    pub fn interrupted(input: usize, output: usize) -> Faults {
        Faults {
            read_most: Some((input / 300).max(3)),
            write_most: Some((output / 300).max(7)),
            interrupt: Some(1),
            ..Faults::NONE
        }
    }

    /// Has a command meet them in a program of this name.
    pub fn put_into(self, command: &mut Command, program: &str) {
        let counts = [
            ("FAULTS_READ_MOST", self.read_most),
            ("FAULTS_WRITE_MOST", self.write_most),
            ("FAULTS_INTERRUPT", self.interrupt),
            ("FAULTS_READ_FAILS_AT", self.read_fails_at),
            ("FAULTS_WRITE_FAILS_AT", self.write_fails_at),
            ("FAULTS_WRITE_STOPS_AT", self.write_stops_at),
        ];
        for (variable, count) in counts {
            if let Some(count) = count {
                command.env(variable, count.to_string());
            }
        }
        if let Some(error) = self.close_error {
            command.env("FAULTS_CLOSE_ERROR", error.to_string());
        }
        if self != Faults::NONE {
            command.env("LD_PRELOAD", LIBRARY).env("FAULTS_IN", program);
        }
    }
}

/// Why there are no faulty calls.
#[derive(Clone, Debug)]
pub struct NotCompiled(String);

impl fmt::Display for NotCompiled {
    fn fmt(&self, f: &mut fmt::Formatter) -> fmt::Result {
        write!(
            f,
            "failed and interrupted calls are NOT compared: {}",
            self.0
        )
    }
}

/// Compiles the source into the scratch folder.
pub fn compile(folder: &Path) -> Result<(), NotCompiled> {
    match gcc(folder) {
        Ok(true) => Ok(()),
        Ok(false) => Err(NotCompiled("gcc rejects faults.c".to_string())),
        Err(error) => Err(NotCompiled(format!("gcc: {error}"))),
    }
}

fn gcc(folder: &Path) -> io::Result<bool> {
    let mut gcc = Command::new("gcc");
    gcc.args("-std=c11 -O2 -Wall -Wextra -Werror -shared -fPIC -x c - -o".split(' '));
    gcc.arg(LIBRARY).current_dir(folder).stdin(Stdio::piped());
    let mut gcc = gcc.spawn()?;
    let mut source = gcc.stdin.take().expect("the input is a pipe");
    let written = source.write_all(SOURCE.as_bytes());
    drop(source);
    let succeeded = gcc.wait()?.success();
    written.map(|()| succeeded)
}
