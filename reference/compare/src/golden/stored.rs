//! The run that is stored beside each program, in its crate's folder: an
//! input, which is `stdin` or a file in `data` that the last word of `args`
//! names, what is printed, `stdout`, and the exit status, `status`, if it is not
//! 0. The toolchain runs them.

use super::check::check_all;
use super::{write, Contents};
use crate::programs::ended::End;
use crate::programs::expected::Expected;
use crate::tally::Check;
use crate::words::{lines, words};
use cases::{fixed, Case};
use reader::Program;
use std::collections::BTreeSet;
use std::fs;
use std::io;
use std::path::{Path, PathBuf};

/// The files that make up the input: standard input, a line for each word,
/// and the folder of the files that words name.
const STDIN: &str = "stdin";
const ARGS: &str = "args";
const DATA: &str = "data";

/// The file with the status.
const STATUS: &str = "status";

/// The case whose input a program is run on, and the name of the file that
/// holds it, if it is not standard input.
fn run(program: Program) -> (&'static str, Option<&'static str>) {
    match program {
        // Two blocks, frames, and a refusal.
        Program::Station => ("refusals/after-a-block", None),
        // The last line ends with the file.
        Program::Reading => ("capture/no-last-line-feed", Some("capture.hex")),
        // The state at the end of the input.
        Program::Model => ("capture/capture", None),
        // More than a block, accepted up to two commands that are too close.
        Program::Accept => ("accept/after-a-block", None),
        // More than a block of orders, and a line that its edge cuts.
        Program::Compose => ("compose/a-block", None),
        // Whole, with more than a block, ahead of a line that is not looked at.
        Program::Reply => ("reply/a-block", None),
    }
}

/// The files of all, below the folder of the crates.
pub fn files() -> Vec<Contents> {
    let cases = fixed();
    let of_program = |program: Program| {
        let (name, file) = run(program);
        let named = |case: &&Case| case.name == name;
        let case = cases.iter().find(named).expect("a case's name");
        let folder = PathBuf::from(program.name());
        let input_file = match file {
            None => folder.join(STDIN),
            Some(file) => folder.join(DATA).join(file),
        };
        let mut files = vec![(input_file, case.input.clone())];
        let mut words = words(program, case);
        words.extend(file.map(str::as_bytes));
        if !words.is_empty() {
            files.push((folder.join(ARGS), lines(&words)));
        }
        let expected = Expected::on(program, case);
        files.push((folder.join("stdout"), expected.printed));
        if let End::Status(status @ 1..) = expected.end {
            files.push((folder.join(STATUS), format!("{status}\n").into_bytes()));
        }
        files
    };
    Program::ALL.into_iter().flat_map(of_program).collect()
}

/// A check for each file, and a fault for each that does not belong to a run.
pub fn check(folder: &Path) -> Vec<Check> {
    check_all(folder, files(), strays(folder))
}

/// Writes them all, and removes those that do not belong to a run.
pub fn write_all(folder: &Path) -> io::Result<()> {
    for stray in strays(folder)? {
        fs::remove_file(folder.join(stray))?;
    }
    write(folder, files())
}

/// The files that the toolchain would give to a program, and no run has.
fn strays(folder: &Path) -> io::Result<Vec<PathBuf>> {
    let of_runs: BTreeSet<PathBuf> = files().into_iter().map(|(path, _)| path).collect();
    let mut strays = Vec::new();
    for program in Program::ALL {
        let below = PathBuf::from(program.name());
        let mut given = vec![below.join(STDIN), below.join(ARGS), below.join(STATUS)];
        let data = below.join(DATA);
        if folder.join(&data).is_dir() {
            for entry in fs::read_dir(folder.join(&data))? {
                given.push(data.join(entry?.file_name()));
            }
        }
        let is_stray = |path: &PathBuf| folder.join(path).exists() && !of_runs.contains(path);
        strays.extend(given.into_iter().filter(is_stray));
    }
    Ok(strays)
}
