//! `reply` alone (document 02, F-12): the words that tell it how many bits to
//! expect, and lines that hold a whole reply or none.

use super::{ways, GOOD};
use crate::programs::faults::Faults;
use crate::programs::situation::{Output, Situation};
use cases::replies::no_header;
use cases::{generate, Random, Stream};

/// Words that are wrong, of which the first is no count, or a later one no
/// file's name.
const WRONG: [&[&str]; 49] = [
    &[],
    &[""],
    &["", ""],
    // No number from 1 to 8,191, or one that is it modulo 2^16, 2^32 or 2^64.
    &["0"],
    &["0000"],
    &["8192"],
    &["9999"],
    &["10000"],
    &["65552"],
    &["4294967312"],
    &["18446744073709551632"],
    &["340282366920938463463374607431768211472"],
    // More than four digits.
    &["00000"],
    &["00001"],
    &["00016"],
    &["08191"],
    // No decimal digits.
    &["F"],
    &["1F"],
    &["0x10"],
    &["1e1"],
    &["16."],
    &["1.6"],
    &["1,6"],
    &["+16"],
    &["-16"],
    &["-1"],
    &[" 16"],
    &["16 "],
    &["1 6"],
    &["16\n"],
    &["\u{FF11}\u{FF16}"],
    &["-"],
    &["--"],
    &["--hel"],
    // A file's name instead of the count, ahead of it, or with a wrong one.
    &["missing.hex"],
    &["missing.hex", "16"],
    &["-", "16"],
    &["0", "missing.hex"],
    &["8192", "-"],
    // What asks for a text stands alone.
    &["--help", "16"],
    &["--version", "16"],
    &["16", "--help"],
    &["16", "--version"],
    // Words behind the count.
    &["16", "-x"],
    &["16", "--"],
    &["16", "-", "-"],
    &["16", "16", "16"],
    &["16", "missing.hex", "missing.hex"],
    &["16", "", ""],
];

/// Each is read as the number that it is.
const COUNTS: [&str; 14] = [
    "1", "01", "0001", "2", "02", "3", "7", "8", "010", "16", "0016", "256", "8190", "8191",
];

/// The greatest count: also a file's name.
const MOST: &str = "8191";

/// Lines by name, with the bits to be expected.
const LINES: [(&str, &str, &[u8]); 10] = [
    ("whole", "1", b"1D\n7F\n"),
    ("whole, no last line feed", "9", b"1DFF00FF00FF00FF\n00FF"),
    ("whole ahead of a wrong line", "2", b"1DFF00\nx\n"),
    ("cut short", "16", b"1D\n7F\n"),
    ("cut short, no last line feed", MOST, b"1DFF\n00"),
    ("cut short with no bits", "1", b"E8\n"),
    ("with no header", "1", b"00\n\n0000\n"),
    ("of no bytes", MOST, b""),
    ("with a wrong line", "1", b"1D\n7f\n7F\n"),
    ("with an odd line", "2", b"1D7F\n\n0\n"),
];

fn new(name: impl Into<String>, count: &str, contents: &[u8]) -> Situation {
    Situation::new(name, contents).reply(&[count])
}

/// More than two blocks, with the bits to be expected: a reply at once, one that
/// is whole with the last character of the first block, and then some.
fn large() -> Vec<(&'static str, &'static str, Vec<u8>)> {
    let two = no_header(131_072);
    let at_the_edge = no_header(65_536 - 9) + "1DFF00FF\n";
    vec![
        ("whole at once", "1", "1D7F\n".to_string() + &two),
        (
            "whole with a block",
            "3",
            at_the_edge.clone() + "x\n" + &two,
        ),
        ("cut short with a block", MOST, at_the_edge + &two),
        ("whole in the end", "3", two.clone() + "1D\nFF00FF"),
        ("cut short", "4", two.clone() + "1DFF00FF\n"),
        ("with no header", "1", two.clone()),
        ("with a wrong line", "2", two + "1DFF\nx\n"),
    ]
    .into_iter()
    .map(|(name, count, text)| (name, count, text.into_bytes()))
    .collect()
}

/// As many bits as can be expected, of which two kilobytes are printed.
fn greatest(how: &str) -> Situation {
    let data = generate::bits(&mut Random::new(0xF12), 8_191);
    let lines = Stream::new().zeros(3).reply(&data).lines();
    new(format!("the greatest reply, {how}"), MOST, &lines)
}

/// Those that need no failing calls.
pub fn situations() -> Vec<Situation> {
    let mut all = words();
    for (name, count, contents) in LINES {
        let new = |how: &str| new(format!("reply {name}, {how}"), count, contents);
        all.extend(ways::ways(new, "missing.hex"));
    }
    for (name, count, contents) in large() {
        let new = |how: &str| new(format!("large reply {name}, {how}"), count, &contents);
        all.extend(ways::large_ways(new));
    }
    all.push(greatest("named").named());
    for blocks in [1, 4, 5] {
        let how = format!("a file of {blocks} blocks");
        all.push(greatest(&how).output(Output::Limited(blocks)));
    }
    all.extend((0..=255).flat_map(each_character));
    all
}

fn words() -> Vec<Situation> {
    let mut all = Vec::new();
    let whole = b"1D\n7F00\n0F\n";
    for words in WRONG {
        let name = format!("reply with wrong words {words:?}");
        all.push(Situation::new(name, whole).reply(words));
    }
    for count in COUNTS {
        let new = |how: &str| new(format!("reply of {count} bits, {how}"), count, whole);
        all.push(new("standard input"));
        all.push(new("word -").word("-"));
        all.push(new("named").named());
    }
    let mut by_a_count = Situation::new("reply in a file named by a count", whole);
    by_a_count.file = MOST.into();
    all.push(by_a_count.reply(&["3"]).named());
    all.extend(long_words());
    all
}

/// A count is told by four digits at most, however long it is; whether it is
/// one is known ahead of what follows it.
fn long_words() -> Vec<Situation> {
    let long = "x".repeat(5_000);
    let new = |name: &str, first: &[&str]| {
        let name = format!("reply with {name}");
        Situation::new(name, GOOD).reply(first)
    };
    let mut all = vec![
        new("a wrong count and a long word", &["0", &long]),
        new("a count and a long word", &["16", &long]),
        new("a count and two long words", &["16", &long, &long]),
        new("two long words", &[&long, &long]),
    ];
    for length in [4_094, 4_095, 4_096, 4_097, 70_000] {
        let zeros = "0".repeat(length - 1);
        let name = format!("a count of {length} digits");
        all.push(new(&name, &[&(zeros.clone() + "1")]));
        all.push(new(
            &(name + ", and a dash"),
            &[&("-".to_string() + &zeros)],
        ));
    }
    all
}

/// A word that is this character, one with it inside, which no word with a
/// byte 0 can be; and a line with it inside, ahead of the end of a reply and
/// behind it.
fn each_character(byte: u8) -> Vec<Situation> {
    let mut all = Vec::new();
    let mut add = |name: &str, count: &[u8], contents: &[u8]| {
        let name = format!("reply with character {byte:02X} {name}");
        all.push(Situation::new(name, contents).reply(&[count]));
    };
    if byte != 0 {
        add("as the count", &[byte], b"1DFF00FF\n");
        add("in the count", &[b'1', byte, b'6'], b"1DFF00FF\n");
    }
    if byte != b'\n' {
        let line = [b"1D\n7", &[byte][..], b"F\n"].concat();
        add("in a line", b"1", &line);
        add(
            "in a line behind",
            b"1",
            &[b"1D7F\n0", &[byte][..]].concat(),
        );
    }
    all
}

/// Calls that fail, are interrupted, or move few bytes or none.
pub fn calls() -> Vec<Situation> {
    let mut all = Vec::new();
    for (name, count, contents) in LINES {
        let new = |how: &str| new(format!("reply {name}, {how}"), count, contents);
        all.extend(ways::calls(new, contents.len(), &[0, 1, 5, 10, 11, 14]));
    }
    for (name, count, contents) in large() {
        let new = |how: &str| new(format!("large reply {name}, {how}"), count, &contents);
        all.extend(ways::large_calls(new));
    }
    for at in [0, 11, 12, 1_000, 2_059, 2_060, 2_061] {
        let faults = Faults {
            write_fails_at: Some(at),
            ..Faults::NONE
        };
        let how = format!("a write fails at {at}");
        all.push(greatest(&how).faults(faults));
    }
    all
}

/// A small disk.
pub fn full_disk() -> Vec<Situation> {
    let mut all = vec![greatest("a disk of 1 page").output(Output::Disk(1))];
    for (name, count, contents) in LINES {
        let name = format!("reply {name}, a disk of 1 page");
        all.push(new(name, count, contents).output(Output::Disk(1)));
    }
    all
}
