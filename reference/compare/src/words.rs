//! The words with which a program is run on a case.

use cases::Case;
use reader::Program;

/// Those ahead of a file's name: `reply` is told how many bits to expect.
pub fn words(program: Program, case: &Case) -> Vec<&[u8]> {
    match (program, &case.count) {
        (Program::Reply, Some(count)) => vec![count.as_bytes()],
        _ => program.words().to_vec(),
    }
}

/// Words as the toolchain has them in a file: a line for each.
pub fn lines(words: &[&[u8]]) -> Vec<u8> {
    let line = |word: &&[u8]| [word, &b"\n"[..]].concat();
    words.iter().flat_map(line).collect()
}
