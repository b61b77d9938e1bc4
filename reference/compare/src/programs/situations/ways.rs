//! What any input goes through with a program that has situations of its own:
//! how it comes, where what is printed and said goes, and calls that fail.

use crate::programs::errors::{EINTR, EIO, ENOENT};
use crate::programs::faults::Faults;
use crate::programs::situation::{ErrorOutput, Input, Output, Situation};

/// An input by what happens to it; `missing` is a file that is not there.
pub fn ways(new: impl Fn(&str) -> Situation, missing: &'static str) -> Vec<Situation> {
    let mut all = vec![
        new("- for standard input").word("-"),
        new("named").named(),
        new("by its name").word("/dev/stdin"),
        new("standard error closed").error(ErrorOutput::Closed),
        new("standard error full").error(ErrorOutput::Full),
        new("standard error with standard output").error(ErrorOutput::Joined),
        new("standard input closed").input(Input::Closed),
        new("a missing file").not_opened(missing, ENOENT),
        new("standard input and output closed")
            .input(Input::Closed)
            .output(Output::Closed),
    ];
    let gone = |ignored| Output::Leaves { after: 0, ignored };
    for (output, how) in [
        (Output::Closed, "standard output closed"),
        (Output::Full, "standard output full"),
        (Output::Limited(0), "a file of no bytes"),
        (gone(true), "a closed pipe, SIGPIPE ignored"),
        (gone(false), "a closed pipe, SIGPIPE not ignored"),
    ] {
        all.push(new(how).output(output));
        let how = format!("{how}, named");
        all.push(new(&how).named().output(output));
    }
    all
}

/// An input of more than two blocks.
pub fn large_ways(new: impl Fn(&str) -> Situation) -> [Situation; 3] {
    [
        new("named").named(),
        new("standard output full").output(Output::Full),
        new("standard output closed").output(Output::Closed),
    ]
}

/// Calls that fail, are interrupted, or move few bytes or none, with an input
/// of so many bytes; writes fail at these places.
pub fn calls(new: impl Fn(&str) -> Situation, length: usize, writes: &[usize]) -> Vec<Situation> {
    let mut all = Vec::new();
    for at in 0..=length {
        let faults = read_fails(at);
        let how = format!("a read fails at {at}");
        all.push(new(&how).faults(faults));
        all.push(new(&(how + ", named")).named().faults(faults));
    }
    let after_reads = written_faults(writes).into_iter();
    all.extend(after_reads.map(|(how, faults)| new(&how).faults(faults)));
    all
}

/// The same with an input of more than two blocks.
pub fn large_calls(new: impl Fn(&str) -> Situation) -> Vec<Situation> {
    let reads = [65_535, 65_536, 65_537, 131_072];
    let mut all: Vec<Situation> = reads
        .map(|at| new(&format!("a read fails at {at}")).faults(read_fails(at)))
        .into();
    let whole = Faults {
        interrupt: Some(5),
        ..Faults::NONE
    };
    all.push(new("interrupted").faults(whole));
    all
}

fn read_fails(at: usize) -> Faults {
    Faults {
        read_fails_at: Some(at),
        ..Faults::NONE
    }
}

/// What may happen to writes and to the closing, and interruptions.
fn written_faults(writes: &[usize]) -> Vec<(String, Faults)> {
    let mut all = Vec::new();
    for &at in writes {
        let fails = Faults {
            write_fails_at: Some(at),
            ..Faults::NONE
        };
        let stops = Faults {
            write_stops_at: Some(at),
            ..Faults::NONE
        };
        all.push((format!("a write fails at {at}"), fails));
        all.push((format!("a write takes nothing at {at}"), stops));
    }
    for (how, error) in [("fails", EIO), ("is interrupted", EINTR)] {
        let faults = Faults {
            close_error: Some(error),
            ..Faults::NONE
        };
        all.push((format!("closing {how}"), faults));
    }
    for times in [1, 5] {
        let faults = Faults {
            read_most: Some(1),
            write_most: Some(1),
            interrupt: Some(times),
            ..Faults::NONE
        };
        all.push((format!("interrupted {times} times"), faults));
    }
    all
}
