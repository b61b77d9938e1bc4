//! Writes each case's input and what the programs print and say for it, the
//! three that list records, or `accept`, `compose` or `reply` where the case is
//! meant for that:
//! `vectors FOLDER [--golden | --generated N | --stored]`.
//!
//! With `--generated` also N streams of each generated list. With `--golden`
//! only the cases that have golden files, and files of cases that are no more
//! are removed. With `--stored` the runs that are stored beside the programs,
//! where FOLDER is that of the crates; what belonged to other runs is removed.

#![forbid(unsafe_code)]

use cases::{composed, crowded, fixed, generated, golden, hits, noisy, pulsed, replied, Case};
use compare::golden::{files, stored, strays, write};
use reader::Program;
use std::fs;
use std::io;
use std::path::Path;
use std::process::ExitCode;

fn main() -> ExitCode {
    let arguments: Vec<String> = std::env::args().skip(1).collect();
    let arguments: Vec<&str> = arguments.iter().map(String::as_str).collect();
    let written = match arguments[..] {
        [folder] if !folder.starts_with("--") => write_all(Path::new(folder), fixed()),
        [folder, "--golden"] => write_golden(Path::new(folder)),
        [folder, "--stored"] => stored::write_all(Path::new(folder)).map(|()| Program::ALL.len()),
        [folder, "--generated", count] => match count.parse() {
            Ok(count) => {
                let listed = [
                    generated(count),
                    noisy(count),
                    crowded(count),
                    hits(count),
                    pulsed(count),
                    composed(count),
                    replied(count),
                ];
                write_all(Path::new(folder), [fixed(), listed.concat()].concat())
            }
            Err(_) => return usage(),
        },
        _ => return usage(),
    };
    match written {
        Ok(written) => {
            println!("{written} cases");
            ExitCode::SUCCESS
        }
        Err(error) => {
            eprintln!("vectors: {error}");
            ExitCode::FAILURE
        }
    }
}

fn usage() -> ExitCode {
    eprintln!("vectors FOLDER [--golden | --generated N | --stored]");
    ExitCode::FAILURE
}

fn write_all(folder: &Path, cases: Vec<Case>) -> io::Result<usize> {
    for case in &cases {
        write(folder, files(case))?;
    }
    Ok(cases.len())
}

fn write_golden(folder: &Path) -> io::Result<usize> {
    let cases = golden();
    fs::create_dir_all(folder)?;
    for stray in strays(folder, &cases)? {
        fs::remove_file(folder.join(stray))?;
    }
    write_all(folder, cases)
}
