//! The programs under test.

use super::expected::Expected;
use super::fault::Fault;
use super::situation::Situation;
use reader::Program;
use std::io;
use std::path::{Path, PathBuf};
use std::sync::atomic::{AtomicUsize, Ordering};
use std::time::Duration;

/// A program that hung so often is not run again, so that a comparison with
/// one that always hangs ends too.
const MOST_HANGS: usize = 3;

pub struct UnderTest {
    folder: PathBuf,
    /// Whether they have an exit status; if not, it is 0 in every case.
    has_status: bool,
    hangs: [AtomicUsize; Program::ALL.len()],
    /// Whether they meet the system by the library of Rattle; if not, as a
    /// program in C does.
    pub by_library: bool,
    /// How long a run may take.
    pub run_limit: Duration,
    /// How long a line's records may take on a live pipe.
    pub line_limit: Duration,
}

impl UnderTest {
    pub fn new(folder: &Path, has_status: bool) -> UnderTest {
        UnderTest {
            folder: folder.to_path_buf(),
            has_status,
            hangs: Default::default(),
            by_library: false,
            run_limit: Duration::from_secs(10),
            line_limit: Duration::from_secs(5),
        }
    }

    /// What is expected of them where the separate reader does this.
    pub fn expected(&self, reader: Expected) -> Expected {
        match self.has_status {
            true => reader,
            false => reader.without_status(),
        }
    }

    /// The same in a situation.
    pub fn expected_there(&self, situation: &Situation, program: Program) -> Expected {
        self.expected(match self.by_library {
            true => situation.expected_by_library(program),
            false => situation.expected(program),
        })
    }

    /// One run of a program, unless it hung too often. The run answers its
    /// fault, if any.
    pub fn run(
        &self,
        program: Program,
        run: impl FnOnce(&Path) -> io::Result<Option<Fault>>,
    ) -> Option<Fault> {
        let hangs = &self.hangs[program as usize];
        if hangs.load(Ordering::Relaxed) >= MOST_HANGS {
            return Some(Fault::GivenUp);
        }
        let fault = run(&self.folder.join(program.name()))
            .unwrap_or_else(|error| Some(Fault::NotStarted(error.to_string())));
        if matches!(fault, Some(Fault::Hangs(_))) {
            hangs.fetch_add(1, Ordering::Relaxed);
        }
        fault
    }
}
