//! What the tests share: the separate reader's programs, compiled.
#![allow(dead_code)]

use std::path::{Path, PathBuf};
use std::process::Command;

/// The folder of the separate reader's programs, beside this package's. They
/// are built, as they are another package's: a test of the whole workspace
/// has done so already, a test of this package alone has not.
pub fn readers_programs() -> PathBuf {
    build("../reader", &["--bins"])
}

/// The program that is wrong in many ways.
pub fn wrong_program() -> PathBuf {
    example("wrong")
}

/// One of this package's examples.
pub fn example(name: &str) -> PathBuf {
    build(".", &["--example", name]).join("examples").join(name)
}

/// Builds a part of a package as this test was built; answers the folder.
fn build(package: &str, words: &[&str]) -> PathBuf {
    let folder = Path::new(env!("CARGO_BIN_EXE_compare")).parent().unwrap();
    let manifest = Path::new(env!("CARGO_MANIFEST_DIR")).join(package);
    let mut build = Command::new(env!("CARGO"));
    build.args(["build", "--offline", "--quiet"]).args(words);
    build
        .arg("--manifest-path")
        .arg(manifest.join("Cargo.toml"));
    build.arg("--target-dir").arg(folder.parent().unwrap());
    if folder.ends_with("release") {
        build.arg("--release");
    }
    assert!(build.status().unwrap().success());
    folder.to_path_buf()
}
