//! A folder for the inputs that are given as files, in which the programs are
//! run.

use super::faults::{self, NotCompiled};
use cases::Case;
use std::fs;
use std::io;
use std::path::{Path, PathBuf};
use std::process;
use std::sync::atomic::{AtomicUsize, Ordering};
use std::sync::OnceLock;

/// Removed, with all that is in it, when it is dropped.
pub struct Scratch {
    folder: PathBuf,
    faults: OnceLock<Result<(), NotCompiled>>,
}

static MADE: AtomicUsize = AtomicUsize::new(0);

impl Scratch {
    pub fn new() -> io::Result<Scratch> {
        let number = MADE.fetch_add(1, Ordering::Relaxed);
        let name = format!("compare-{}-{number}", process::id());
        let folder = std::env::temp_dir().join(name);
        fs::create_dir(&folder)?;
        Ok(Scratch {
            folder,
            faults: OnceLock::new(),
        })
    }

    pub fn folder(&self) -> &Path {
        &self.folder
    }

    /// Compiles what makes calls fail, once, into the folder.
    pub fn faults(&self) -> &Result<(), NotCompiled> {
        self.faults.get_or_init(|| faults::compile(&self.folder))
    }

    /// The name, in the folder, of the file that holds a case's input.
    pub fn file(&self, case: &Case) -> io::Result<String> {
        let name = case.name.replace('/', "-");
        fs::write(self.folder.join(&name), &case.input)?;
        Ok(name)
    }
}

impl Drop for Scratch {
    fn drop(&mut self) {
        let _ = fs::remove_dir_all(&self.folder);
    }
}
