//! What the programs say: usage, help, version, and the lines on standard
//! error.

use crate::program::Program;
use std::io;

const VERSION: &str = env!("CARGO_PKG_VERSION");

const HEXADECIMAL: &str = "Hexadecimal lines";

pub fn usage(program: Program) -> String {
    let words = match program {
        Program::Reply => "COUNT [FILE]",
        _ => "[FILE]",
    };
    format!("usage: {} {words}\n", program.name())
}

pub fn version(program: Program) -> String {
    format!("{} (Kernelstill) {VERSION}\n", program.name())
}

pub fn help(program: Program) -> String {
    let (lines, does) = match program {
        Program::Station => (HEXADECIMAL, "a line per record and one per frame"),
        Program::Reading => (HEXADECIMAL, "a line per record"),
        Program::Model => (HEXADECIMAL, "a line per record, then the state,"),
        Program::Accept => (
            HEXADECIMAL,
            "a line for the first pattern at fault, if there is one,",
        ),
        Program::Compose => ("Orders, one a line,", "hexadecimal lines of their stream"),
        Program::Reply => (
            HEXADECIMAL,
            "whether a reply of COUNT bits, 1 to 8191, is whole, and a line of its bytes,",
        ),
    };
    let (whole, refused) = match program {
        Program::Accept => ("accepted", "refused"),
        Program::Reply => ("whole", "not whole or a line was refused"),
        _ => ("the whole input", "a line was refused"),
    };
    format!(
        "{}\
         {lines} from FILE, or from standard input if there is none or it is -; \
         {does} to standard output.\n\
         Exit status: 0 {whole}, 1 {refused}, 2 wrong words, 3 the system failed.\n",
        usage(program)
    )
}

/// A line about the input, standard output or a word: the program, what it
/// is about, and what is to be said.
pub fn about(program: Program, what: &[u8], said: &str) -> Vec<u8> {
    [
        program.name().as_bytes(),
        b": ",
        what,
        b": ",
        said.as_bytes(),
        b"\n",
    ]
    .concat()
}

/// The system's text of an error, without the number that Rust adds.
pub fn text(error: &io::Error) -> String {
    let text = error.to_string();
    let number = error.raw_os_error().unwrap_or_default();
    match text.strip_suffix(&format!(" (os error {number})")) {
        Some(text) => text.to_string(),
        None => text,
    }
}
