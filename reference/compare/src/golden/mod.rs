//! The golden files of cases: each input with what the programs print and
//! say; and the runs that are stored beside the programs.

mod check;
pub mod stored;

pub use check::check;

use crate::programs::expected::Expected;
use crate::words::{lines, words};
use cases::Case;
use reader::Program;
use std::collections::BTreeSet;
use std::fs;
use std::io;
use std::path::{Path, PathBuf};

/// A file's path below a folder, and its contents.
pub type Contents = (PathBuf, Vec<u8>);

/// The endings of an input's file, of the one with the words, if there are
/// any, and of the one with what is said on standard error.
const INPUT: &str = "in";
const WORDS: &str = "args";
const SAID: &str = "said";

/// The folders of the cases for `accept` (document 02, F-8).
const ACCEPT: [&str; 2] = ["accept/", "pulse-streams/"];

/// The programs whose outputs are a case's files: those that list records, or
/// `accept`, `compose` or `reply` where it is meant for that. All programs are
/// compared on all cases.
fn programs(case: &Case) -> &'static [Program] {
    if case.holds_orders() {
        return &[Program::Compose];
    }
    if case.count.is_some() {
        return &[Program::Reply];
    }
    match ACCEPT.iter().any(|folder| case.name.starts_with(folder)) {
        true => &[Program::Accept],
        false => &Program::LISTING,
    }
}

/// A case's files. The programs say nothing of a fit input.
pub fn files(case: &Case) -> Vec<Contents> {
    let path = |end: &str| PathBuf::from(format!("{}.{end}", case.name));
    let mut files = vec![(path(INPUT), case.input.clone())];
    let mut said = Vec::new();
    for &program in programs(case) {
        let words = words(program, case);
        if !words.is_empty() {
            files.push((path(WORDS), lines(&words)));
        }
        let expected = Expected::on(program, case);
        files.push((path(program.name()), expected.printed));
        said.extend(expected.said);
    }
    if !said.is_empty() {
        files.push((path(SAID), said));
    }
    files
}

/// Writes files, and the folders in which they lie.
pub fn write(folder: &Path, files: Vec<Contents>) -> io::Result<()> {
    for (path, contents) in files {
        let path = folder.join(path);
        if let Some(subject) = path.parent() {
            fs::create_dir_all(subject)?;
        }
        fs::write(path, contents)?;
    }
    Ok(())
}

/// The files, by their paths below the folder, that look like a case's but
/// belong to none of these.
pub fn strays(folder: &Path, cases: &[Case]) -> io::Result<Vec<PathBuf>> {
    let of_cases = cases.iter().flat_map(files).map(|(path, _)| path);
    let of_cases: BTreeSet<PathBuf> = of_cases.collect();
    let mut strays = Vec::new();
    let mut folders = vec![PathBuf::new()];
    while let Some(below) = folders.pop() {
        for entry in fs::read_dir(folder.join(&below))? {
            let entry = entry?;
            let path = below.join(entry.file_name());
            if entry.file_type()?.is_dir() {
                folders.push(path);
            } else if has_known_ending(&path) && !of_cases.contains(&path) {
                strays.push(path);
            }
        }
    }
    strays.sort();
    Ok(strays)
}

fn has_known_ending(path: &Path) -> bool {
    let programs = Program::ALL.map(Program::name);
    let ending = path.extension().and_then(|ending| ending.to_str());
    ending
        .is_some_and(|ending| [INPUT, WORDS, SAID].contains(&ending) || programs.contains(&ending))
}
