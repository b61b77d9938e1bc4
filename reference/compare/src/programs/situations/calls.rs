//! Calls that fail in the middle of a run, are interrupted, move few bytes or
//! none.

use super::{large, GOOD, REFUSED, SILENT};
use crate::programs::errors::{EINTR, EIO};
use crate::programs::faults::Faults;
use crate::programs::situation::Situation;

pub fn situations() -> Vec<Situation> {
    let mut all = reads();
    all.extend(writes());
    all.extend(writes_of_nothing());
    all.extend(closings("fails", EIO));
    all.extend(closings("is interrupted", EINTR));
    all.extend(interrupted(1, "interrupted"));
    all.extend(interrupted(5, "interrupted 5 times"));
    all
}

/// The bytes after which reads fail: inside a line, at its end, about a
/// block's edge.
fn reads() -> Vec<Situation> {
    let mut all = Vec::new();
    let large = large();
    for (contents, places) in [
        (GOOD, &[0, 1, 6, 7, 8, 10, 14][..]),
        (SILENT, &[0, 3, 5]),
        // After the refused line nothing is read.
        (REFUSED, &[7, 10, 21]),
        (&large, &[65_535, 65_536, 65_537, 100_000, 131_072]),
    ] {
        for &at in places {
            let name = format!("a read fails at {at} of {}", contents.len());
            let faults = Faults {
                read_fails_at: Some(at),
                ..Faults::NONE
            };
            let standard = Situation::new(name.clone(), contents).faults(faults);
            all.push(standard);
            let name = format!("{name}, named");
            all.push(Situation::new(name, contents).named().faults(faults));
        }
    }
    all
}

/// The bytes after which writes fail, as on a disk that has become full.
fn writes() -> Vec<Situation> {
    let mut all = Vec::new();
    let large = large();
    for (contents, places) in [
        (GOOD, &[0, 1, 28, 100][..]),
        (REFUSED, &[5, 56, 68]),
        (&large, &[28, 65_535, 65_536, 65_537, 100_000]),
    ] {
        for &at in places {
            let name = format!("a write fails at {at} of {}", contents.len());
            let faults = Faults {
                write_fails_at: Some(at),
                ..Faults::NONE
            };
            all.push(Situation::new(name, contents).faults(faults));
        }
    }
    all
}

/// The bytes after which writes take none and answer 0, which is no error.
fn writes_of_nothing() -> Vec<Situation> {
    let new = |what: &str, contents: &[u8], at, interrupt| {
        let name = format!("writes take nothing at {at}, {what}");
        let faults = Faults {
            write_stops_at: Some(at),
            interrupt,
            ..Faults::NONE
        };
        Situation::new(name, contents).faults(faults)
    };
    vec![
        new("good", GOOD, 0, None),
        new("good", GOOD, 28, None),
        new("good", GOOD, 100, None),
        // More than is written.
        new("good", GOOD, 5_000, None),
        new("interrupted", GOOD, 30, Some(1)),
        new("refused", REFUSED, 5, None),
        new("refused", REFUSED, 56, None),
        new("large", &large(), 65_536, None),
        new("--help", GOOD, 10, None).word("--help"),
        new("--version", GOOD, 0, None).word("--version"),
    ]
}

/// Closing standard output.
fn closings(how: &str, error: i32) -> Vec<Situation> {
    let faults = Faults {
        close_error: Some(error),
        ..Faults::NONE
    };
    let new = |what: &str, contents: &[u8]| {
        Situation::new(format!("closing {how}, {what}"), contents).faults(faults)
    };
    vec![
        new("good", GOOD),
        new("named", GOOD).named(),
        new("refused", REFUSED),
        new("nothing to print", SILENT),
        new("--help", GOOD).word("--help"),
        new("--version", GOOD).word("--version"),
        new("wrong words", GOOD).word("-x"),
    ]
}

/// So many interruptions ahead of each call.
fn interrupted(times: usize, name: &str) -> Vec<Situation> {
    let whole = Faults {
        interrupt: Some(times),
        ..Faults::NONE
    };
    let by_bytes = Faults {
        read_most: Some(1),
        write_most: Some(1),
        ..whole
    };
    let new = |what: &str, contents: &[u8]| {
        Situation::new(format!("{name}, {what}"), contents).faults(by_bytes)
    };
    let long = [&[b'A'; 9_000][..], b"\r\n"].concat();
    vec![
        new("good", GOOD),
        new("good, whole blocks", GOOD).faults(whole),
        new("large, whole blocks", &large()).faults(whole),
        new("named", REFUSED).named(),
        new("a long line", &long).named(),
        new("--help", GOOD).word("--help"),
        new("--version", GOOD).word("--version"),
    ]
}
