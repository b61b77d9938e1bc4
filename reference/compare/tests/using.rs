//! The page for the person at the bench, docs/USING.md, and its example:
//! every line that it shows, of output, messages and exit status, is real.

mod common;

use cases::fixed;
use common::readers_programs;
use compare::printed::printed;
use reader::Program;
use std::collections::HashSet;
use std::fs;
use std::path::{Path, PathBuf};
use std::process::Command;

fn repository() -> PathBuf {
    Path::new(env!("CARGO_MANIFEST_DIR")).join("../..")
}

fn read(path: &str) -> String {
    fs::read_to_string(repository().join(path)).expect(path)
}

fn prints(program: Program, input: &str) -> String {
    String::from_utf8(printed(program, input.as_bytes())).unwrap()
}

#[test]
fn the_example_is_the_case_and_its_listing() {
    let capture = read("examples/capture.hex");
    let case = fixed()
        .into_iter()
        .find(|case| case.name == "capture/capture");
    assert_eq!(capture.as_bytes(), case.unwrap().input);
    assert_eq!(
        prints(Program::Station, &capture),
        read("examples/capture.listing")
    );
}

#[test]
fn the_example_has_every_kind_and_flag() {
    let listing = read("examples/capture.listing");
    let records = listing.lines().filter(|line| !line.starts_with('>'));
    let mut kinds = HashSet::new();
    let mut flags = 0;
    for record in records {
        kinds.insert(&record[13..15]);
        flags |= u8::from_str_radix(&record[16..18], 16).unwrap();
    }
    let expected = "01 11 12 14 18 1F 20 21 22 23 24 25 26 28 29 2A 2F";
    assert_eq!(kinds, expected.split(' ').collect());
    // All but 20: its commands keep the timing table.
    assert_eq!(flags, 0x1F);
}

/// Commands of the page with the output shown below each.
fn sessions(page: &str) -> Vec<(&str, String)> {
    let mut sessions: Vec<(&str, String)> = Vec::new();
    let mut inside = false;
    for line in page.lines() {
        if line.starts_with("```") {
            inside = line == "```console";
        } else if let Some(command) = line.strip_prefix("$ ").filter(|_| inside) {
            sessions.push((command, String::new()));
        } else if inside {
            let (_, output) = sessions.last_mut().expect("a command comes first");
            output.push_str(line);
            output.push('\n');
        }
    }
    sessions
}

/// What a shell shows, from the repository's root, where the programs are the
/// separate reader's.
fn shown(command: &str, programs: &Path) -> String {
    let path = std::env::var("PATH").unwrap_or_default();
    let mut shell = Command::new("/bin/sh");
    shell.arg("-c").arg(format!("exec 2>&1\n{command}"));
    shell.env("PATH", format!("{}:{path}", programs.display()));
    let output = shell.current_dir(repository()).output().unwrap();
    String::from_utf8(output.stdout).unwrap()
}

#[test]
fn each_command_of_the_page_prints_what_is_below_it() {
    let page = read("docs/USING.md");
    let sessions = sessions(&page);
    let programs = readers_programs();
    for (command, output) in &sessions {
        assert_eq!(&shown(command, &programs), output, "{command}");
    }
    // Enough of them, with each exit status but the first, and a message.
    assert!(sessions.len() >= 15, "{}", sessions.len());
    let shown: String = sessions.into_iter().map(|(_, output)| output).collect();
    for line in ["status 1\n", "status 2\n", "status 3\n", ": line 2: "] {
        assert!(shown.contains(line), "{line}");
    }
}

/// A record or a state line, and no line of letters that stand for digits.
fn is_output(text: &str) -> bool {
    let digits = |word: &str| word.bytes().all(|c| b"0123456789ABCDEF".contains(&c));
    let names = ["register", "l1id", "base", "runmode", "pointers", "word"];
    let (first, rest) = text.split_once(' ').unwrap_or((text, ""));
    let begins = first.len() == 12 && digits(first) || names.contains(&first);
    begins && !rest.is_empty() && rest.split(' ').all(digits)
}

#[test]
fn other_lines_of_the_page_are_from_the_example() {
    let page = read("docs/USING.md");
    let capture = read("examples/capture.hex");
    let printed = prints(Program::Station, &capture) + &prints(Program::Model, &capture);
    let printed: HashSet<&str> = printed.lines().collect();
    let tables = page.lines().filter(|line| line.starts_with('|'));
    let quoted = tables.flat_map(|line| line.split('`').skip(1).step_by(2));
    let indented = page.lines().filter_map(|line| line.strip_prefix("    "));
    let is_shown = |text: &&str| is_output(text) || text.starts_with('>');
    let shown: Vec<&str> = quoted.chain(indented).filter(is_shown).collect();
    assert!(shown.len() >= 31, "{}", shown.len());
    for line in shown {
        assert!(printed.contains(line), "{line}");
    }
}
