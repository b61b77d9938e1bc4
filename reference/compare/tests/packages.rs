//! What each package may know of the others: the reader and the inputs know
//! nothing, so that neither can have learnt anything from what is compared.

use std::collections::BTreeSet;
use std::fs;
use std::path::{Path, PathBuf};
use std::process::Command;

fn package(name: &str) -> PathBuf {
    Path::new(env!("CARGO_MANIFEST_DIR")).join("..").join(name)
}

/// The packages that a package needs by dependencies of these kinds.
fn needed(name: &str, kinds: &str) -> Vec<String> {
    let mut tree = Command::new(env!("CARGO"));
    tree.args(["tree", "--offline", "--prefix", "none", "--edges", kinds]);
    tree.arg("--manifest-path");
    let output = tree.arg(package(name).join("Cargo.toml")).output().unwrap();
    assert!(output.status.success(), "{name}");
    // A line for each: name, version, folder. The first is the package itself.
    let lines = String::from_utf8(output.stdout).unwrap();
    let names = lines.lines().filter_map(|line| line.split(' ').next());
    let names: BTreeSet<&str> = names.filter(|&other| other != name).collect();
    names.into_iter().map(String::from).collect()
}

#[test]
fn each_package_depends_on_what_it_may() {
    let none: [&str; 0] = [];
    assert_eq!(needed("reader", "normal,build"), none);
    assert_eq!(needed("reader", "all"), ["cases"]);
    assert_eq!(needed("cases", "all"), none);
    assert_eq!(needed("compare", "all"), ["cases", "reader"]);
}

/// By which a source could reach files, other programs or foreign functions.
const DOORS: [&str; 9] = [
    "include!",
    "include_str!",
    "include_bytes!",
    "env!",
    "#[path",
    "extern ",
    "fs::",
    "env::",
    "process::Command",
];

/// The one source with such doors: the programs' way to the system, through
/// which they open what their word names.
const SYSTEM: &str = "reader/src/bin/system/mod.rs";

/// The programs begin at C's `main`; the version is the package's own.
const NO_DOORS: [&str; 2] = ["extern \"C\" fn main()", "env!(\"CARGO_PKG_VERSION\")"];

fn sources(folder: &Path) -> Vec<PathBuf> {
    let entries = fs::read_dir(folder).expect("a folder");
    let paths = entries.map(|entry| entry.expect("an entry").path());
    paths
        .flat_map(|path| match path.is_dir() {
            true => sources(&path),
            false => vec![path],
        })
        .collect()
}

#[test]
fn the_reader_and_the_inputs_reach_nothing_outside() {
    for name in ["reader", "cases"] {
        let folder = package(name);
        assert!(!folder.join("build.rs").exists(), "{name}");
        let library = fs::read_to_string(folder.join("src/lib.rs")).expect(name);
        assert!(library.contains("#![forbid(unsafe_code)]"), "{name}");
        let sources = sources(&folder.join("src"));
        assert!(sources.len() >= 10, "{name}");
        for path in sources.iter().filter(|path| !path.ends_with(SYSTEM)) {
            let mut source = fs::read_to_string(path).expect("a source");
            for allowed in NO_DOORS {
                source = source.replace(allowed, "");
            }
            for door in DOORS {
                assert!(!source.contains(door), "{door} in {}", path.display());
            }
        }
    }
}
