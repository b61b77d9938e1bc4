//! Standard input that cannot be read, standard error that cannot be written,
//! and lines with each character.

use super::{GOOD, REFUSED};
use crate::programs::errors::ENOENT;
use crate::programs::situation::{ErrorOutput, Input, Situation};
use reader::Program;

pub fn situations() -> Vec<Situation> {
    let mut all = unread();
    for (error, name) in [
        (ErrorOutput::Closed, "closed"),
        (ErrorOutput::Full, "full"),
        (ErrorOutput::Joined, "with standard output"),
    ] {
        all.extend(elsewhere(error, name));
    }
    let characters = (0..=255).filter(|byte| *byte != b'\n');
    all.extend(characters.map(each_character));
    all
}

fn unread() -> Vec<Situation> {
    let new =
        |what: &str, input| Situation::new(format!("standard input {what}"), GOOD).input(input);
    vec![
        new("closed", Input::Closed),
        new("closed, word -", Input::Closed).word("-"),
        new("closed, --help", Input::Closed).word("--help"),
        new("closed, wrong words", Input::Closed).word("-x"),
        new("a folder", Input::Folder),
        new("a folder, word -", Input::Folder).word("-"),
        new("a folder, --version", Input::Folder).word("--version"),
        new("empty", Input::Empty),
    ]
}

/// What is said on standard error goes elsewhere.
fn elsewhere(error: ErrorOutput, name: &str) -> Vec<Situation> {
    let new = |what: &str, contents: &[u8]| {
        Situation::new(format!("standard error {name}, {what}"), contents).error(error)
    };
    vec![
        new("good", GOOD),
        new("refused", REFUSED),
        new("refused, named", REFUSED).named(),
        new("wrong words", GOOD).word("--x"),
        new("an empty word", GOOD).not_opened("", ENOENT),
        new("standard input a folder", GOOD).input(Input::Folder),
    ]
}

/// A line with this character inside.
fn each_character(byte: u8) -> Situation {
    let contents = [b"B5C074\n0", &[byte][..], b"1\n"].concat();
    let mut situation = Situation::new(format!("character {byte:02X}"), &contents);
    situation.programs = vec![Program::Station];
    situation
}
