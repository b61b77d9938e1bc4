//! The words: help, version, wrong ones, and files by their names.

use super::{GOOD, LOOP, REFUSED};
use crate::programs::errors::{ELOOP, ENAMETOOLONG, ENOENT, ENOTDIR};
use crate::programs::situation::{Input, Situation};

/// Words that are neither a file's name nor anything else.
const WRONG: [&[&str]; 15] = [
    &["--"],
    &["-x"],
    &["-h"],
    &["--x"],
    &["--hel"],
    &["--help "],
    &["--version="],
    &["-\n"],
    &["-", "-"],
    &["--help", "--help"],
    &["--help", "-"],
    &["wrong", "wrong"],
    &["", ""],
    &["missing", "--version"],
    &["a", "b", "c"],
];

pub fn situations() -> Vec<Situation> {
    let mut all = vec![
        Situation::new("--help", GOOD).word("--help"),
        Situation::new("--version", GOOD).word("--version"),
        Situation::new("- for standard input", GOOD).word("-"),
        Situation::new("- for standard input, refused", REFUSED).word("-"),
    ];
    all.extend(WRONG.map(|words| {
        let begun = Situation::new(format!("wrong words {words:?}"), GOOD);
        words.iter().fold(begun, Situation::word)
    }));
    all.extend(named());
    all.extend(odd_names());
    all.extend(not_opened());
    all.extend(long_words());
    all
}

fn named() -> Vec<Situation> {
    let new = Situation::new;
    vec![
        new("named file", GOOD).named(),
        new("named file, refused", REFUSED).named(),
        new("named empty file", b"").named(),
        new("named folder", GOOD).word("folder"),
        new("named folder, as a dot", GOOD).word("."),
        new("named file, no standard input", GOOD)
            .named()
            .input(Input::Closed),
        new("named file, a folder as standard input", GOOD)
            .named()
            .input(Input::Folder),
        new("named device", b"").word("/dev/null"),
        new("standard input by its name", REFUSED).word("/dev/stdin"),
    ]
}

/// Names that are read as they stand, and said so in messages.
fn odd_names() -> Vec<Situation> {
    let names: [&[u8]; 6] = [
        b"with space",
        b" -",
        b"two\nlines",
        b"\xFF\x80 %s \\n \x1B",
        "\u{FC}ber".as_bytes(),
        b"./-name",
    ];
    let odd = |name: &[u8]| {
        let shown = name.escape_ascii();
        let mut situation = Situation::new(format!("odd name {shown}"), REFUSED);
        situation.file = name.to_vec();
        situation.named()
    };
    names.map(odd).into()
}

fn not_opened() -> Vec<Situation> {
    let component = "x".repeat(256);
    let missing: [(&str, &[u8], i32); 7] = [
        ("an empty word", b"", ENOENT),
        ("a missing file", b"missing.hex", ENOENT),
        ("a missing file of an odd name", b"a\nb\xFF %s", ENOENT),
        ("a missing folder", b"missing/a.hex", ENOENT),
        ("a file as a folder", b"/dev/null/a.hex", ENOTDIR),
        ("a link to itself", LOOP.as_bytes(), ELOOP),
        ("a long part of a path", component.as_bytes(), ENAMETOOLONG),
    ];
    missing
        .map(|(name, word, error)| Situation::new(name, GOOD).not_opened(word, error))
        .into()
}

/// At and about the most bytes that a word may have.
fn long_words() -> Vec<Situation> {
    // Names the same file, however many dots stand ahead.
    let path = |situation: &Situation, length: usize| {
        let file = &situation.file;
        let dots = "./".repeat(length / 2);
        let ahead = &dots.as_bytes()[..(length - file.len()) / 2 * 2];
        let more = if (length - file.len()) % 2 == 1 {
            "/"
        } else {
            ""
        };
        [ahead, more.as_bytes(), file].concat()
    };
    let named = |name: &str, length: usize| {
        let situation = Situation::new(name, REFUSED);
        let word = path(&situation, length);
        assert_eq!(word.len(), length);
        situation.word(word)
    };
    vec![
        named("a word of 4,094 bytes", 4_094),
        named("a word of 4,095 bytes", 4_095),
        named("a word of 4,096 bytes", 4_096),
        named("a word of 4,097 bytes", 4_097),
        named("a word of 70,000 bytes", 70_000),
        Situation::new("a long word with dashes", GOOD).word("-".repeat(4_096)),
        Situation::new("wrong word of 4,095 bytes", GOOD).word("-".repeat(4_095)),
        Situation::new("two long words", GOOD)
            .word("x".repeat(5_000))
            .word("y".repeat(5_000)),
    ]
}
