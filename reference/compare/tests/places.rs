//! The place in the input is kept as byte and bit (document 02, F-3): the
//! functions that find a bit hold no division and no remainder, a call finds
//! its first place once, and the input is read under the cursor alone.

use std::fs;
use std::path::{Path, PathBuf};

/// The crates that find a bit of the input: the check of a stream, the
/// cursor, the taking call's loop, and those that walk within it. No other
/// crate names the cursor, but for those below.
const CRATES: [&str; 4] = ["acceptance", "bits", "call_loop", "stretches"];

/// The taking call, which hands its input to its loop.
const CALL: &str = "taking";

/// Reads a frame's lent bits under cursors as it writes a stream; no call that
/// takes an input goes through it.
const WRITER: &str = "stream_writer";

/// Reads a reply by the cursor. It divides its count of cycles, and no place.
const REPLIES: &str = "replies";

/// What these may hand the input to.
const LENT_TO: [&str; 8] = [
    "read",
    "receive",
    "hunt_on",
    "body_on",
    "advance",
    "range_fits",
    "run",
    "check",
];

fn crates() -> PathBuf {
    Path::new(env!("CARGO_MANIFEST_DIR")).join("../../crates")
}

fn source(name: &str) -> String {
    let folder = crates().join(name).join("src");
    let path = ["lib.rt", "main.rt"].map(|f| folder.join(f));
    let path = path.iter().find(|p| p.exists()).expect("a source");
    fs::read_to_string(path).unwrap_or_else(|e| panic!("{}: {e}", path.display()))
}

/// The text after the braces that open first in it.
fn after_braces(text: &str) -> &str {
    let mut open = 0;
    for (at, c) in text.char_indices() {
        match c {
            '{' => open += 1,
            '}' => open -= 1,
            _ => continue,
        }
        if open == 0 {
            return &text[at + 1..];
        }
    }
    panic!("braces that do not close");
}

/// Where a clause begins: `requires {`, or `requires NAME {`.
fn clause(text: &str, word: &str) -> Option<usize> {
    let found = text.match_indices(word).find(|(at, word)| {
        let (ahead, behind) = (&text[..*at], &text[at + word.len()..]);
        let opens = behind.split_once('{').map(|b| b.0.trim());
        !ahead.ends_with(in_name)
            && behind.starts_with(' ')
            && opens.is_some_and(|name| name.chars().all(in_name))
    });
    found.map(|f| f.0)
}

/// A source without its comments, and without what is stated of it and does
/// not run: `requires { .. }`, `ensures { .. }`, each with a name or without,
/// and `ghost ..;`.
fn code(source: &str) -> String {
    assert!(
        !source.contains('"'),
        "a text may hold what looks like a comment"
    );
    let bare: Vec<&str> = source
        .lines()
        .map(|l| l.split("//").next().unwrap_or(""))
        .collect();
    let text = bare.join("\n");
    let mut rest = text.as_str();
    let mut kept = String::new();
    loop {
        let stated = [
            (clause(rest, "requires"), "requires"),
            (clause(rest, "ensures"), "ensures"),
            (rest.find("ghost "), "ghost "),
        ];
        let Some((at, word)) = stated
            .into_iter()
            .filter_map(|(at, w)| Some((at?, w)))
            .min()
        else {
            return kept + rest;
        };
        kept += &rest[..at];
        rest = match word {
            "ghost " => rest[at..].split_once(';').expect("its end").1,
            _ => after_braces(&rest[at..]),
        };
    }
}

/// The lines that divide or take a remainder.
fn divisions(source: &str) -> Vec<String> {
    let code = code(source);
    let lines = code.lines().filter(|l| l.contains(['/', '%']));
    lines.map(|l| l.trim().to_string()).collect()
}

fn in_name(c: char) -> bool {
    c.is_alphanumeric() || c == '_'
}

/// The function in whose brackets a text ends; none outside all brackets.
fn callee(text: &str) -> &str {
    let mut closed = 0;
    for (at, c) in text.char_indices().rev() {
        match c {
            ')' => closed += 1,
            '(' if closed == 0 => return text[..at].rsplit(|c| !in_name(c)).next().unwrap_or(""),
            '(' => closed -= 1,
            _ => {}
        }
    }
    ""
}

/// The functions that the input is handed to, each time.
fn lent_to(code: &str) -> Vec<&str> {
    let words = code.match_indices("input").filter(|(at, word)| {
        let (ahead, behind) = (&code[..*at], &code[at + word.len()..]);
        !ahead.ends_with(in_name) && !behind.starts_with(in_name) && !behind.starts_with(": &[u8]")
    });
    words.map(|(at, _)| callee(&code[..at])).collect()
}

#[test]
fn no_function_that_finds_a_bit_divides() {
    for name in CRATES.into_iter().chain([CALL]) {
        let source = source(name);
        assert!(code(&source).contains("fn "), "{name}");
        assert_eq!(divisions(&source), Vec::<String>::new(), "{name}");
    }
}

#[test]
fn a_call_finds_its_first_place_once() {
    let texts = CRATES.map(|name| code(&source(name)));
    let calls = |text: &String| text.matches("Cursor::at(").count();
    assert_eq!(texts.each_ref().map(calls), [1, 0, 1, 0]);
    let replies = code(&source(REPLIES));
    assert_eq!(calls(&replies), 1);
    for text in [&texts[0], &texts[2], &replies] {
        let loops = ["for ", "while "].iter().filter_map(|word| text.find(word));
        let ahead = &text[..loops.min().expect("the call's loop")];
        assert!(ahead.contains("Cursor::at(first)"));
    }
}

#[test]
fn the_input_is_read_under_the_cursor_alone() {
    let (mut cursors, mut all) = (Vec::new(), 0);
    for entry in fs::read_dir(crates()).expect("the crates") {
        let name = entry
            .expect("a crate")
            .file_name()
            .into_string()
            .expect("its name");
        all += 1;
        if ![WRITER, REPLIES].contains(&name.as_str()) && source(&name).contains("Cursor") {
            cursors.push(name);
        }
    }
    cursors.sort();
    assert!(all > 20);
    assert_eq!(cursors, CRATES);
    assert_eq!(code(&source("bits")).matches("input[").count(), 1);
    for name in ["acceptance", "call_loop", "stretches", CALL, REPLIES] {
        let code = code(&source(name));
        let lent = lent_to(&code);
        assert!(!lent.is_empty(), "{name}");
        assert_eq!(lent.iter().find(|f| !LENT_TO.contains(f)), None, "{name}");
    }
}

#[test]
fn a_division_is_found_in_code_and_not_in_comments_or_statements() {
    let source = "\
// a / b
ghost use Rattle.std.specs.Prelude.{◌/◌, ◌%◌};
fn f(place: usize) -> usize // % 8
    requires { (place / 8 < 4) × P { n = place % 2 } }
    ensures low { result < 8 }
    ensures at_place { result
        ≡ place % 8 } {
    place & 7
}
";
    assert_eq!(divisions(source), Vec::<String>::new());
    let of = |wrong: &str| divisions(&source.replace("place & 7", wrong));
    assert_eq!(of("place % 8"), ["place % 8"]);
    assert_eq!(of("place / 8 // the byte"), ["place / 8"]);
}

#[test]
fn a_function_that_is_lent_the_input_is_found() {
    let code = "fn f(input: &[u8], inputs: u8) -> u8 { bits::byte_of(at.read(input), input, 8) + g(input[0]) + (input.len()) }";
    assert_eq!(lent_to(code), ["read", "byte_of", "g", ""]);
}
