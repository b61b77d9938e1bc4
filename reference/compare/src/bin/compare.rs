//! Compares programs with the separate reader, byte for byte on standard
//! output and standard error: `compare FOLDER [--status]`, where FOLDER holds
//! `station`, `reading`, `model`, `accept`, `compose` and `reply`. With
//! `--status` their exit status is the reader's; without it they have none, and
//! it is 0 in every case.
//!
//! Its last line is `N passed, M failed`; it fails if any check did.

#![forbid(unsafe_code)]

use compare::programs::compare;
use std::path::Path;
use std::process::ExitCode;

/// The repository, with its golden files.
const REPOSITORY: &str = concat!(env!("CARGO_MANIFEST_DIR"), "/../..");

fn main() -> ExitCode {
    let arguments: Vec<String> = std::env::args().skip(1).collect();
    let arguments: Vec<&str> = arguments.iter().map(String::as_str).collect();
    let (folder, has_status) = match arguments[..] {
        [folder] if !folder.starts_with("--") => (folder, false),
        [folder, "--status"] => (folder, true),
        _ => {
            eprintln!("compare FOLDER [--status]");
            return ExitCode::FAILURE;
        }
    };
    match compare(Path::new(folder), has_status, Path::new(REPOSITORY)) {
        Ok(tally) => {
            println!("{tally}");
            if tally.all_passed() {
                ExitCode::SUCCESS
            } else {
                ExitCode::FAILURE
            }
        }
        Err(error) => {
            eprintln!("compare: {error}");
            ExitCode::FAILURE
        }
    }
}
