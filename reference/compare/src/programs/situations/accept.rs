//! `accept` alone (document 02, F-8), with streams that are accepted and ones
//! that are not: what the other situations lend it is refused at its first
//! line.

use super::ways;
use crate::programs::situation::{Output, Situation};
use reader::Program;

/// Streams by name: accepted, each number of a pattern at fault, and lines
/// that are refused while a pattern is unfinished or behind a fault.
const STREAMS: [(&str, &[u8]); 9] = [
    ("accepted", b"E8\n07\n40\n"),
    ("accepted, no last line feed", b"E8\n07\n40"),
    ("unknown", b"E8\nA0\nE8\n"),
    ("cut", b"E8\n07\n"),
    ("cut, no last line feed", b"E8\n07"),
    ("too close", b"B0AC\n20\nE8\n"),
    ("a line inside a pattern", b"E8\n07\ne8\n"),
    ("a line behind a fault", b"E8\nA0\nx\n"),
    ("zeros", b"00\n\n0000\n"),
];

fn new(name: impl Into<String>, contents: &[u8]) -> Situation {
    let mut situation = Situation::new(name, contents);
    situation.programs = vec![Program::Accept];
    situation
}

/// More than two blocks of triggers, accepted; and the same with a pattern at
/// fault in the last line.
fn large(end: &str) -> Vec<u8> {
    let line = "E8".repeat(32) + "\n";
    (line.repeat(2_100) + end).into_bytes()
}

/// Those that need no failing calls.
pub fn situations() -> Vec<Situation> {
    let mut all = Vec::new();
    for (name, contents) in STREAMS {
        let new = |how: &str| new(format!("stream {name}, {how}"), contents);
        all.extend(ways::ways(new, "missing.hex"));
    }
    for (name, end) in LARGE {
        let contents = large(end);
        let new = |how: &str| new(format!("large stream {name}, {how}"), &contents);
        all.extend(ways::large_ways(new));
    }
    let characters = (0..=255).filter(|byte| *byte != b'\n');
    all.extend(characters.map(each_character));
    all
}

const LARGE: [(&str, &str); 4] = [
    ("accepted", ""),
    ("unknown", "E8A0\nE8\n"),
    ("cut", "E807"),
    ("refused", "07\nx\n"),
];

/// A line with this character inside, while a pattern is unfinished.
fn each_character(byte: u8) -> Situation {
    let contents = [b"E807\n4", &[byte][..], b"0\n"].concat();
    new(format!("stream with character {byte:02X}"), &contents)
}

/// Calls that fail, are interrupted, or move few bytes or none.
pub fn calls() -> Vec<Situation> {
    let mut all = Vec::new();
    for (name, contents) in STREAMS {
        let new = |how: &str| new(format!("stream {name}, {how}"), contents);
        all.extend(ways::calls(new, contents.len(), &[0, 1, 5, 12, 16]));
    }
    for (name, end) in LARGE {
        let contents = large(end);
        let new = |how: &str| new(format!("large stream {name}, {how}"), &contents);
        all.extend(ways::large_calls(new));
    }
    all
}

/// A disk without room, and one with.
pub fn full_disk() -> Vec<Situation> {
    let mut all = Vec::new();
    for (name, contents) in STREAMS {
        let name = format!("stream {name}, a disk of 1 page");
        all.push(new(name, contents).output(Output::Disk(1)));
    }
    all
}
