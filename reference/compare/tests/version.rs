//! One version: every file that states it states that of CHANGES.md's newest
//! heading.

use std::fs;
use std::path::{Path, PathBuf};

const CHANGES: &str = "CHANGES.md";

/// Files of the repository, besides those of Cargo, and what stands ahead of
/// the version on its line.
const FILES: [(&str, &str); 3] = [
    ("include/kernelstill.h", "#define KERNELSTILL_VERSION \""),
    ("host/kernelstill.pc", "Version: "),
    ("python/kernelstill.py", "__version__ = \""),
];

/// The same for every Cargo.toml and Cargo.lock. All packages are ours.
const CARGO: &str = "version = \"";

/// A package that has its version from its workspace, which states it.
const INHERITED: &str = "version.workspace = true";

/// The versions that lines of a text state, each up to a quote or line end.
fn stated<'a>(text: &'a str, ahead: &str) -> Vec<&'a str> {
    let lines = text.lines().filter_map(|line| line.strip_prefix(ahead));
    lines
        .map(|rest| rest.split('"').next().unwrap_or(rest).trim())
        .collect()
}

fn read(root: &Path, file: &Path) -> String {
    fs::read_to_string(root.join(file)).unwrap_or_default()
}

/// Each Cargo.toml and Cargo.lock, by its path below the root.
fn cargo_files(root: &Path) -> Vec<PathBuf> {
    let mut files = Vec::new();
    let mut folders = vec![PathBuf::new()];
    while let Some(below) = folders.pop() {
        for entry in fs::read_dir(root.join(&below)).expect("a folder") {
            let name = entry.expect("an entry").file_name();
            let path = below.join(&name);
            if root.join(&path).is_dir() && name != "target" && name != ".git" {
                folders.push(path);
            } else if name == "Cargo.toml" || name == "Cargo.lock" {
                files.push(path);
            }
        }
    }
    files.sort();
    files
}

/// A line for each file that states another version, or none.
fn differences(root: &Path) -> Vec<String> {
    let changes = read(root, Path::new(CHANGES));
    let Some(&newest) = stated(&changes, "## ").first() else {
        return vec![format!("{CHANGES} states no version")];
    };
    let others = FILES.map(|(file, ahead)| (PathBuf::from(file), ahead));
    let cargo = cargo_files(root).into_iter().map(|file| (file, CARGO));
    let mut differences = Vec::new();
    for (file, ahead) in others.into_iter().chain(cargo) {
        let text = read(root, &file);
        let versions = stated(&text, ahead);
        let file = file.display();
        if versions.is_empty() && !text.lines().any(|line| line == INHERITED) {
            differences.push(format!("{file} states no version"));
        }
        let other = versions.into_iter().find(|&version| version != newest);
        differences.extend(other.map(|other| format!("{file} states {other}, {CHANGES} {newest}")));
    }
    differences
}

fn repository() -> PathBuf {
    Path::new(env!("CARGO_MANIFEST_DIR")).join("../..")
}

#[test]
fn every_file_states_the_newest_version() {
    let differences = differences(&repository());
    assert!(differences.is_empty(), "{}", differences.join("\n"));
}

/// The files that state a version themselves.
fn stating() -> Vec<PathBuf> {
    let cargo = cargo_files(&repository()).into_iter();
    let cargo = cargo.filter(|file| !stated(&read(&repository(), file), CARGO).is_empty());
    FILES
        .map(|(file, _)| PathBuf::from(file))
        .into_iter()
        .chain(cargo)
        .collect()
}

/// A copy of the files, in a folder of a test's own.
fn copy(name: &str) -> PathBuf {
    let root = Path::new(env!("CARGO_TARGET_TMPDIR")).join(name);
    let _ = fs::remove_dir_all(&root);
    let others = FILES.map(|(file, _)| PathBuf::from(file));
    let cargo = cargo_files(&repository());
    for file in others.into_iter().chain(cargo).chain([CHANGES.into()]) {
        fs::create_dir_all(root.join(&file).parent().unwrap()).unwrap();
        fs::copy(repository().join(&file), root.join(&file)).unwrap();
    }
    root
}

#[test]
fn a_file_with_another_version_is_named() {
    let root = copy("another-version");
    assert_eq!(differences(&root), [""; 0]);
    let changes = read(&root, Path::new(CHANGES));
    let newest = stated(&changes, "## ")[0];
    let stating = stating();
    // Header, pkg-config file, Python module; two workspaces, two lock files.
    assert!(stating.len() >= 7);
    for file in stating {
        let text = read(&root, &file);
        let other = text.replace(newest, "9.8.7");
        assert_ne!(text, other);
        fs::write(root.join(&file), other).unwrap();
        let file = file.display();
        let expected = format!("{file} states 9.8.7, {CHANGES} {newest}");
        assert_eq!(differences(&root), [expected]);
        fs::write(root.join(file.to_string()), text).unwrap();
    }
    // A package of a workspace that goes its own way.
    let package = Path::new("reference/reader/Cargo.toml");
    let text = read(&root, package);
    let other = text.replace(INHERITED, "version = \"9.8.7\"");
    fs::write(root.join(package), other).unwrap();
    assert_eq!(differences(&root).len(), 1);
}

#[test]
fn a_file_with_no_version_is_named() {
    let root = copy("no-version");
    for file in stating() {
        let text = read(&root, &file);
        fs::write(root.join(&file), "").unwrap();
        let expected = format!("{} states no version", file.display());
        assert_eq!(differences(&root), [expected]);
        fs::write(root.join(file), text).unwrap();
    }
    fs::write(root.join(CHANGES), "# Changes\n").unwrap();
    assert_eq!(differences(&root), ["CHANGES.md states no version"]);
}

/// A new section of CHANGES.md asks for its version everywhere.
#[test]
fn the_newest_heading_decides() {
    let root = copy("newest");
    let changes = read(&root, Path::new(CHANGES));
    let newer = changes.replacen("\n## ", "\n## 9.8.7\n\nA change.\n\n## ", 1);
    fs::write(root.join(CHANGES), newer).unwrap();
    assert_eq!(differences(&root).len(), stating().len());
}
