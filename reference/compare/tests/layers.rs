//! The layers stand in `crates.txt` as docs/ARCHITECTURE.md says: a crate
//! uses only crates that stand above its own line.

use std::fs;
use std::path::Path;

/// Each line's crate and what it depends on.
fn lines(text: &str) -> Vec<(&str, Vec<&str>)> {
    let rows = text.lines().filter(|l| !l.starts_with('#'));
    rows.filter_map(|l| l.split_once(':'))
        .map(|(name, uses)| (first_word(name), uses.split_whitespace().collect()))
        .collect()
}

/// A line may say behind the name how the crate is built.
fn first_word(text: &str) -> &str {
    text.split_whitespace().next().unwrap_or_default()
}

/// The pairs in which a crate names itself or one below. A name that has no
/// line is a library of the kit.
fn out_of_order<'a>(rows: &[(&'a str, Vec<&'a str>)]) -> Vec<(&'a str, &'a str)> {
    let place = |name: &str| rows.iter().position(|r| r.0 == name);
    let uses = rows.iter().enumerate();
    uses.flat_map(|(at, (name, uses))| uses.iter().map(move |used| (at, *name, *used)))
        .filter(|(at, _, used)| place(used).is_some_and(|p| p >= *at))
        .map(|(_, name, used)| (name, used))
        .collect()
}

#[test]
fn a_crate_uses_only_crates_above_it() {
    let path = Path::new(env!("CARGO_MANIFEST_DIR")).join("../../crates.txt");
    let text = fs::read_to_string(path).expect("crates.txt");
    let rows = lines(&text);
    assert!(rows.len() > 20, "{} lines of crates", rows.len());
    assert_eq!(out_of_order(&rows), []);
}

#[test]
fn a_crate_that_names_a_later_one_is_found() {
    let rows = lines("low: io\n# a comment: high\nmiddle: low high\nhigh: middle high\n");
    assert_eq!(out_of_order(&rows), [("middle", "high"), ("high", "high")]);
}
