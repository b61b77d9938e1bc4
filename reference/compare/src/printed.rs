//! What the separate reader's programs print for an input.

use crate::programs::expected::{Expected, Imagined};
use reader::Program;

/// The beginning of `accept`'s line for number 14.
const CUT: &[u8] = b"!0E ";

/// The beginnings of `compose`'s lines for a refused line.
const WRONG_ORDER: [&[u8]; 2] = [b"!09 ", b"!0A "];

/// The beginnings of `reply`'s lines for an input that has ended too early.
const NOT_WHOLE: [&[u8]; 2] = [b"no header", b"cut short "];

/// All that a program prints for an input that has ended.
pub fn printed(program: Program, input: &[u8]) -> Vec<u8> {
    let mut printed = Vec::new();
    program
        .list_all(input, &mut printed)
        .expect("memory can be read and written");
    printed
}

/// What a program, run with these words, has printed after whole lines, while
/// more may follow.
pub fn printed_so_far(program: Program, words: &[&[u8]], lines: &[u8]) -> Vec<u8> {
    let lists = match program {
        // Its state comes with the end of the run.
        Program::Model => Program::Reading,
        _ => program,
    };
    let printed = Expected::of(lists, words, Imagined::new(lines)).printed;
    let begins = |beginnings: &[&[u8]]| beginnings.iter().any(|first| printed.starts_with(first));
    let comes_at_the_end = match program {
        Program::Station | Program::Reading | Program::Model => false,
        // That the stream ends inside a command is known at its end.
        Program::Accept => begins(&[CUT]),
        // The stream, or that it is too long, is known at the end of the text.
        Program::Compose => !begins(&WRONG_ORDER),
        // That there is no more of a reply is known at the end.
        Program::Reply => begins(&NOT_WHOLE),
    };
    match comes_at_the_end {
        true => Vec::new(),
        false => printed,
    }
}
