//! The golden files and stored runs against what the separate reader prints
//! now.

use super::{files, strays, Contents};
use crate::programs::difference::difference;
use crate::programs::fault::Fault;
use crate::tally::Check;
use cases::Case;
use std::fs;
use std::io;
use std::path::{Path, PathBuf};

/// A check for each file of each case, and a fault for each other file.
pub fn check(folder: &Path, cases: &[Case]) -> Vec<Check> {
    let files = cases.iter().flat_map(files).collect();
    check_all(folder, files, strays(folder, cases))
}

/// A check for each of these files, and a fault for each stray one.
pub fn check_all(
    folder: &Path,
    files: Vec<Contents>,
    strays: io::Result<Vec<PathBuf>>,
) -> Vec<Check> {
    let mut checks = check_files(folder, files);
    match strays {
        Ok(strays) => checks.extend(strays.iter().map(|path| named(path, Some(Fault::Stray)))),
        Err(error) => checks.push(named(folder, Some(Fault::Unreadable(error.to_string())))),
    }
    checks
}

fn check_files(folder: &Path, files: Vec<Contents>) -> Vec<Check> {
    let files = files.into_iter();
    files
        .map(|(path, expected)| {
            let fault = match fs::read(folder.join(&path)) {
                Ok(contents) => difference(&expected, &contents).map(Fault::Differs),
                Err(error) => Some(Fault::Unreadable(error.to_string())),
            };
            named(&path, fault)
        })
        .collect()
}

fn named(path: &Path, fault: Option<Fault>) -> Check {
    Check {
        name: format!("golden file {}", path.display()),
        fault,
    }
}
