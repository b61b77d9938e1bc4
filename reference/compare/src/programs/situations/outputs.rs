//! Standard output that is closed, full, limited, or that nobody reads any
//! more.

use super::{large, GOOD, REFUSED, SILENT};
use crate::programs::errors::ENOENT;
use crate::programs::situation::{ErrorOutput, Input, Output, Situation};
use reader::Program;

/// Blocks of 512 bytes that 128 records of 28 bytes fill.
const BLOCKS: usize = 7;

pub fn situations() -> Vec<Situation> {
    let gone = |ignored| Output::Leaves { after: 0, ignored };
    let mut all = Vec::new();
    for (output, name) in [
        (Output::Closed, "closed"),
        (Output::Full, "full"),
        (Output::Limited(0), "a file of no bytes"),
        (gone(true), "a closed pipe, SIGPIPE ignored"),
        (gone(false), "a closed pipe, SIGPIPE not ignored"),
    ] {
        all.extend(never_written(output, name));
    }
    all.extend(written_in_part());
    all.extend(nothing_open());
    all
}

/// Outputs that take no byte at all.
fn never_written(output: Output, name: &str) -> Vec<Situation> {
    let new = |what: &str, contents: &[u8]| {
        Situation::new(format!("standard output {name}, {what}"), contents).output(output)
    };
    vec![
        new("good", GOOD),
        new("named", GOOD).named(),
        new("refused", REFUSED),
        new("refused at once", b"x"),
        new("nothing to print", SILENT),
        new("no input", b""),
        new("large", &large()),
        new("--help", GOOD).word("--help"),
        new("--version", GOOD).word("--version"),
        new("wrong words", GOOD).word("-x"),
        new("a missing file", GOOD).not_opened("missing.hex", ENOENT),
        new("a folder", GOOD).input(Input::Folder),
        new("standard error closed", GOOD).error(ErrorOutput::Closed),
    ]
}

/// Outputs that fail after some bytes.
fn written_in_part() -> Vec<Situation> {
    let mut all = Vec::new();
    for blocks in [1, 8, 128, 129] {
        let name = format!("a file of {blocks} blocks");
        all.push(Situation::new(name, &large()).output(Output::Limited(blocks)));
    }
    for (records, name) in [
        (128, "a file just large enough"),
        (129, "a record too many"),
    ] {
        let contents = exactly(records);
        all.push(Situation::new(name, &contents).output(Output::Limited(BLOCKS)));
    }
    for after in [1, 1_000, 66_000] {
        for ignored in [true, false] {
            let what = if ignored {
                "SIGPIPE ignored"
            } else {
                "SIGPIPE not ignored"
            };
            let name = format!("a reader of {after} bytes, {what}");
            let output = Output::Leaves { after, ignored };
            let mut leaves = Situation::new(name, &large()).output(output);
            // What the others print fits into the pipe before the reader leaves.
            leaves.programs = Program::LISTING.to_vec();
            all.push(leaves);
        }
    }
    all
}

/// A disk on which there is room for a part.
pub fn full_disk() -> Vec<Situation> {
    let on = |pages: usize, what: &str, contents: &[u8]| {
        let name = format!("a disk of {pages} pages, {what}");
        Situation::new(name, contents).output(Output::Disk(pages))
    };
    let refused = [&large()[..], b"x"].concat();
    vec![
        on(1, "good", GOOD),
        on(1, "large", &large()),
        on(17, "large", &large()),
        on(17, "refused", &refused),
        on(1_000, "refused", &refused),
    ]
}

/// So many records: EnDataTake, then LV1, a byte each.
fn exactly(records: usize) -> Vec<u8> {
    let triggers = "E8\n".repeat(records - 1);
    format!("B5C000\n{triggers}").into_bytes()
}

fn nothing_open() -> Vec<Situation> {
    let new = |what: &str| {
        Situation::new(format!("nothing open, {what}"), GOOD)
            .input(Input::Closed)
            .output(Output::Closed)
    };
    vec![
        new("but standard error"),
        new("with -x but standard error").word("-x"),
        new("at all").error(ErrorOutput::Closed),
        new("at all, --help")
            .error(ErrorOutput::Closed)
            .word("--help"),
    ]
}
