//! The words with which a program is started, its own name not among them.

use crate::program::Program;
use crate::reply::DataBits;

/// Bytes that a word may have at most.
const LONGEST: usize = 4_095;

/// Digits that the count of expected bits may have at most.
const COUNT_DIGITS: usize = 4;

/// What the words ask for.
#[derive(Clone, Copy, Debug, PartialEq, Eq)]
pub enum Asked<'a> {
    Help,
    Version,
    /// To read the input.
    Input(Input<'a>),
    /// To read a reply of so many bits from the input (document 02, F-12).
    Reply(DataBits, Input<'a>),
    /// A word is too long to be a file's name.
    TooLong,
    /// Nothing that there is.
    Wrong,
}

/// Where the input is.
#[derive(Clone, Copy, Debug, PartialEq, Eq)]
pub enum Input<'a> {
    Standard,
    File(&'a [u8]),
}

impl<'a> Input<'a> {
    /// What messages call it.
    pub fn name(self) -> &'a [u8] {
        match self {
            Input::Standard => b"standard input",
            Input::File(name) => name,
        }
    }
}

pub fn asked(program: Program, words: &[Vec<u8>]) -> Asked<'_> {
    match (program, words) {
        (_, [word]) if word == b"--help" => Asked::Help,
        (_, [word]) if word == b"--version" => Asked::Version,
        (Program::Reply, []) => Asked::Wrong,
        (Program::Reply, [count, file @ ..]) => match data_bits(count) {
            Some(expected) => by_file(file, |input| Asked::Reply(expected, input)),
            None => Asked::Wrong,
        },
        (_, file) => by_file(file, Asked::Input),
    }
}

/// The words from the file's name on, which is the last; `read` asks to read
/// an input.
fn by_file<'a>(words: &'a [Vec<u8>], read: impl Fn(Input<'a>) -> Asked<'a>) -> Asked<'a> {
    let word = match words {
        [] => return read(Input::Standard),
        [word] => &word[..],
        _ => return Asked::Wrong,
    };
    match word {
        _ if word.len() > LONGEST => Asked::TooLong,
        b"-" => read(Input::Standard),
        [b'-', ..] => Asked::Wrong,
        // An empty word too: it names no file that could be opened.
        _ => read(Input::File(word)),
    }
}

/// Decimal digits and nothing else.
fn data_bits(word: &[u8]) -> Option<DataBits> {
    if word.len() > COUNT_DIGITS || !word.iter().all(u8::is_ascii_digit) {
        return None;
    }
    let digits = word.iter().map(|&digit| u64::from(digit - b'0'));
    DataBits::new(digits.fold(0, |count, digit| 10 * count + digit))
}
