//! `compose` alone (document 02, F-2), with texts of orders that are composed
//! and ones that are not: what the other situations lend it is refused at its
//! first line.

use super::ways;
use crate::programs::faults::Faults;
use crate::programs::situation::{Output, Situation};
use reader::Program;

/// Texts by name: composed, refused with each number, and without an order.
const TEXTS: [(&str, &[u8]); 9] = [
    ("composed", b"en-data-take\nlv1 # a trigger\nbcr 3\n"),
    (
        "composed, no last line feed",
        b"wr-register 5 1\nwr-receiver A5",
    ),
    ("wrong", b"lv1\nlv2\nlv1\n"),
    ("wrong, no last line feed", b"lv1\nwr-receiver A5"),
    ("with a field missing", b"lv1\nwr-register 5\n"),
    ("too close", b"bcr\nbcr 1\nlv1\n"),
    ("too long", b"lv1 8388604\nlv1\n"),
    ("no orders", b"\n# none\n"),
    ("of no bytes", b""),
];

fn new(name: impl Into<String>, contents: &[u8]) -> Situation {
    let mut situation = Situation::new(name, contents);
    situation.programs = vec![Program::Compose];
    situation
}

/// More than two blocks of lines, and then some.
fn large(end: &str) -> Vec<u8> {
    ("lv1 # a trigger\n".repeat(9_000) + end).into_bytes()
}

const LARGE: [(&str, &str); 4] = [
    ("composed", "lv1 4000000\n"),
    ("wrong", "lv2\nlv1\n"),
    ("too close", "sync\nlv1"),
    ("too long", "lv1 8388608"),
];

/// Those that need no failing calls.
pub fn situations() -> Vec<Situation> {
    let mut all = Vec::new();
    for (name, contents) in TEXTS {
        let new = |how: &str| new(format!("orders {name}, {how}"), contents);
        all.extend(ways::ways(new, "missing.txt"));
    }
    all.extend(large_texts());
    let characters = (0..=255).filter(|byte| *byte != b'\n');
    all.extend(characters.flat_map(each_character));
    all
}

/// More text than a block, and more digits than a pipe holds.
fn large_texts() -> Vec<Situation> {
    let mut all = Vec::new();
    for (name, end) in LARGE {
        let contents = large(end);
        let new = |how: &str| new(format!("large orders {name}, {how}"), &contents);
        all.extend(ways::large_ways(new));
    }
    let contents = large(LARGE[0].1);
    let new = |how: &str| new(format!("large orders composed, {how}"), &contents);
    for blocks in [1, 128, 129] {
        let how = format!("a file of {blocks} blocks");
        all.push(new(&how).output(Output::Limited(blocks)));
    }
    for after in [1, 1_000, 66_000] {
        for (ignored, what) in [(true, "SIGPIPE ignored"), (false, "SIGPIPE not ignored")] {
            let how = format!("a reader of {after} bytes, {what}");
            all.push(new(&how).output(Output::Leaves { after, ignored }));
        }
    }
    all
}

/// Lines with this character inside a name, between two words, inside a
/// number, inside a frame's count and inside a comment.
fn each_character(byte: u8) -> Vec<Situation> {
    let places: [(&str, &[u8], &[u8]); 5] = [
        ("a name", b"lv1\nl", b"v1\n"),
        ("words", b"lv1\nlv1", b"2\n"),
        ("a number", b"wr-register 5 1", b"2 # CNT\n"),
        ("a frame", b"wr-register 5 48\nwr-front-end 5C8:", b"9\n"),
        ("a comment", b"lv1\nlv1 # a", b"b\n"),
    ];
    let line = |(place, ahead, behind): (&str, &[u8], &[u8])| {
        let contents = [ahead, &[byte], behind].concat();
        new(
            format!("orders with character {byte:02X} in {place}"),
            &contents,
        )
    };
    places.map(line).into()
}

/// Calls that fail, are interrupted, or move few bytes or none.
pub fn calls() -> Vec<Situation> {
    let mut all = Vec::new();
    for (name, contents) in TEXTS {
        let new = |how: &str| new(format!("orders {name}, {how}"), contents);
        all.extend(ways::calls(new, contents.len(), &[0, 1, 5, 12]));
    }
    for (name, end) in LARGE {
        let contents = large(end);
        let new = |how: &str| new(format!("large orders {name}, {how}"), &contents);
        all.extend(ways::large_calls(new));
    }
    let contents = large(LARGE[0].1);
    for at in [64, 65, 65_535, 65_536, 65_537, 500_000] {
        let faults = Faults {
            write_fails_at: Some(at),
            ..Faults::NONE
        };
        let name = format!("large orders composed, a write fails at {at}");
        all.push(new(name, &contents).faults(faults));
    }
    all
}

/// A disk without room, and one with.
pub fn full_disk() -> Vec<Situation> {
    let mut all = Vec::new();
    for (name, contents) in TEXTS {
        let name = format!("orders {name}, a disk of 1 page");
        all.push(new(name, contents).output(Output::Disk(1)));
    }
    let name = "large orders composed, a disk of 17 pages";
    all.push(new(name, &large(LARGE[0].1)).output(Output::Disk(17)));
    all
}
