//! The documents name what is there: each file that a page links, each
//! definition's or proof's file and each name in it, each promise's part, and
//! each must-fail edit.

use std::fs;
use std::path::{Path, PathBuf};

const PAGES: [&str; 10] = [
    "README.md",
    "CHANGES.md",
    "docs/ARCHITECTURE.md",
    "docs/DECISIONS.md",
    "docs/PROMISES.md",
    "docs/PROVED.md",
    "docs/SPEED.md",
    "docs/USING.md",
    "reference/README.md",
    "tests/golden/README.md",
];

fn root() -> PathBuf {
    Path::new(env!("CARGO_MANIFEST_DIR")).join("../..")
}

fn page(name: &str) -> String {
    fs::read_to_string(root().join(name)).unwrap_or_else(|e| panic!("{name}: {e}"))
}

/// What stands between an opening and a closing mark, each time.
fn between<'a>(text: &'a str, open: &str, close: char) -> Vec<&'a str> {
    let parts = text.split(open).skip(1);
    parts
        .filter_map(|p| p.split_once(close))
        .map(|p| p.0)
        .collect()
}

/// The targets of a page's links that are files of the repository.
fn links(text: &str) -> Vec<&str> {
    let targets = between(text, "](", ')').into_iter();
    targets
        .filter(|t| !t.contains("://") && !t.starts_with('#'))
        .collect()
}

/// Words in backticks, outside code blocks.
fn quoted(text: &str) -> Vec<&str> {
    let prose = text.split("```").step_by(2);
    prose
        .flat_map(|p| p.split('`').skip(1).step_by(2))
        .collect()
}

/// A name such as `calls/specs/Take` or `taking/proofs/take`: a file of a
/// crate, or the folder of a function's proof.
fn names_a_file(word: &str) -> bool {
    let parts: Vec<&str> = word.split('/').collect();
    parts.len() >= 3
        && matches!(parts[1], "specs" | "proofs" | "must-fail")
        && parts.iter().all(|p| {
            p.chars()
                .all(|c| c.is_ascii_alphanumeric() || "_-.".contains(c))
        })
        && !parts
            .iter()
            .any(|p| p.is_empty() || p.chars().all(char::is_uppercase))
}

fn file_is_there(word: &str) -> bool {
    let path = root().join("crates").join(word);
    path.exists()
        || ["antt", "edit"]
            .iter()
            .any(|e| path.with_extension(e).exists())
}

/// The names that follow a file's in a line: those in it, "`calls/specs/Take`:
/// `take_of`, `refused`", or other files of its folder, "`taking/proofs/take`,
/// `run`".
struct Named<'a> {
    file: &'a str,
    inside: Vec<&'a str>,
    beside: Vec<&'a str>,
}

fn named(line: &str) -> Vec<Named<'_>> {
    // Every second piece stands in backticks.
    let pieces: Vec<&str> = line.split('`').collect();
    let listed = |at: usize| -> Vec<&str> {
        let mut names = Vec::new();
        for pair in pieces[at..].chunks_exact(2) {
            names.push(pair[0]);
            if ![", ", ", and ", " and "].contains(&pair[1]) {
                break;
            }
        }
        names.retain(|name| !name.contains('/'));
        names
    };
    let files = (1..pieces.len().saturating_sub(1)).step_by(2);
    files
        .filter(|&at| names_a_file(pieces[at]))
        .map(|at| Named {
            file: pieces[at],
            inside: listed(if pieces[at + 1] == ": " {
                at + 2
            } else {
                pieces.len()
            }),
            beside: listed(if pieces[at + 1] == ", " {
                at + 2
            } else {
                pieces.len()
            }),
        })
        .collect()
}

/// A line's first word behind those that open a declaration.
fn declares(line: &str) -> &str {
    let mut words = line.split_whitespace();
    words
        .find(|w| !matches!(*w, "pub" | "abbrev" | "unfoldable" | "record"))
        .unwrap_or("")
}

fn is_declared(file: &str, name: &str) -> bool {
    let path = root().join("crates").join(format!("{file}.antt"));
    let text = fs::read_to_string(path).unwrap_or_default();
    text.lines().any(|line| declares(line) == name)
}

/// The texts of all definitions.
fn definitions() -> Vec<String> {
    let entries = |folder: PathBuf| fs::read_dir(folder).into_iter().flatten().flatten();
    entries(root().join("crates"))
        .flat_map(|e| entries(e.path().join("specs")))
        .filter_map(|e| fs::read_to_string(e.path()).ok())
        .collect()
}

/// A name such as `Opens.number`: a record and a part of it.
fn part(word: &str) -> Option<(&str, &str)> {
    let (record, part) = word.split_once('.')?;
    let plain = |w: &str| {
        w.chars()
            .all(|c| c.is_ascii_alphanumeric() || "-_".contains(c))
    };
    let starts = |w: &str, how: fn(&char) -> bool| w.chars().next().filter(how).is_some();
    (plain(record)
        && plain(part)
        && starts(record, char::is_ascii_uppercase)
        && starts(part, char::is_ascii_lowercase))
    .then_some((record, part))
}

fn has_part(text: &str, record: &str, part: &str) -> bool {
    let mut lines = text.lines();
    let head = format!("pub record {record} ");
    lines.any(|line| line.starts_with(&head))
        && lines
            .take_while(|line| line.starts_with(' '))
            .any(|line| declares(line) == part)
}

/// In a row's last column, "crate: `edit`, `edit`; crate: `edit`".
fn edits(row: &str) -> Vec<String> {
    let cells: Vec<&str> = row.trim().trim_matches('|').split('|').collect();
    let Some(last) = cells.last().filter(|_| cells.len() == 5) else {
        return Vec::new();
    };
    let of_crate = |part: &str| -> Vec<String> {
        let Some((name, list)) = part.split_once(':') else {
            return Vec::new();
        };
        let named = list.split('`').skip(1).step_by(2);
        named
            .map(|e| format!("{}/must-fail/{e}.edit", name.trim()))
            .collect()
    };
    last.split(';').flat_map(of_crate).collect()
}

#[test]
fn every_link_leads_to_a_file() {
    for name in PAGES {
        let folder = root().join(name).parent().expect("a folder").to_path_buf();
        for target in links(&page(name)) {
            let file = target.split('#').next().unwrap_or(target);
            assert!(folder.join(file).exists(), "{name} links {target}");
        }
    }
}

#[test]
fn every_named_definition_and_proof_has_its_file() {
    for name in PAGES {
        for word in quoted(&page(name)).into_iter().filter(|w| names_a_file(w)) {
            assert!(file_is_there(word), "{name} names {word}");
        }
    }
}

#[test]
fn every_name_is_in_the_file_that_it_follows() {
    let mut checked = 0;
    for name in PAGES {
        for of_file in page(name).lines().flat_map(named) {
            let Named { file, .. } = of_file;
            let (folder, _) = file.rsplit_once('/').expect("a folder");
            for inside in &of_file.inside {
                assert!(is_declared(file, inside), "{name}: {inside} in {file}");
            }
            for beside in &of_file.beside {
                let other = format!("{folder}/{beside}");
                assert!(file_is_there(&other), "{name} names {other}");
            }
            checked += of_file.inside.len() + of_file.beside.len();
        }
    }
    assert!(checked > 100, "only {checked} names are checked");
}

#[test]
fn every_named_part_of_a_promise_is_there() {
    let (text, definitions) = (page("docs/PROMISES.md"), definitions());
    let named: Vec<(&str, &str)> = quoted(&text).into_iter().filter_map(part).collect();
    assert!(named.len() > 15, "only {} parts are named", named.len());
    for (record, part) in named {
        let found = definitions.iter().any(|d| has_part(d, record, part));
        assert!(found, "no {record}.{part}");
    }
}

#[test]
fn every_named_must_fail_edit_is_there() {
    let text = page("docs/PROMISES.md");
    let named: Vec<String> = text.lines().flat_map(edits).collect();
    assert!(named.len() > 50, "only {} edits are named", named.len());
    for edit in named {
        assert!(root().join("crates").join(&edit).exists(), "no {edit}");
    }
}

#[test]
fn a_file_that_is_not_there_is_found() {
    assert!(names_a_file("calls/specs/Take") && file_is_there("calls/specs/Take"));
    assert!(names_a_file("calls/specs/Taken") && !file_is_there("calls/specs/Taken"));
    assert_eq!(
        edits("| a | b | c | d | taking: `time`, `idles`; image: `phases` |").len(),
        3
    );
}

#[test]
fn a_name_in_another_file_is_found() {
    let line = "| a | `calls/specs/Take`: `take_of`, `run_of`, and `Call`, with `b`; `taking/proofs/take`, `run`, over `c` |";
    let of_files = named(line);
    assert_eq!(of_files.len(), 2);
    assert_eq!(of_files[0].inside, ["take_of", "run_of", "Call"]);
    assert_eq!(of_files[1].beside, ["run"]);
    assert!(of_files[0].beside.is_empty() && of_files[1].inside.is_empty());
    assert!(is_declared("calls/specs/Take", "take_of") && is_declared("calls/specs/Take", "Call"));
    // It is declared in another file, and used here.
    assert!(is_declared("calls/specs/Run", "run_of") && !is_declared("calls/specs/Take", "run_of"));
}

#[test]
fn a_part_of_another_record_is_found() {
    assert_eq!(part("Opens.number"), Some(("Opens", "number")));
    assert!(part("Cargo.Toml").is_none() && part("a.b").is_none() && part("Opens").is_none());
    let text =
        "pub record A : Type 0 where\n  pub b : B\n\npub record C : Type 0 where\n  pub d : D\n";
    assert!(has_part(text, "A", "b") && has_part(text, "C", "d"));
    assert!(!has_part(text, "A", "d") && !has_part(text, "B", "b"));
}
