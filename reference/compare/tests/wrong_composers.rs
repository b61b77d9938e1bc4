//! The comparison through the C interface passes a right composer (document
//! 02, F-2) and rejects ones that are wrong in one way (`examples/composer.rs`).

mod common;

use common::example;
use compare::interface::{checker, composing};
use compare::tally::Tally;
use std::fs;
use std::os::unix::fs::symlink;
use std::path::{Path, PathBuf};

/// All ways to be wrong, each known by the name of the file.
const WAYS: [&str; 12] = [
    "counts-zeros-in-32-bits",
    "drops-high-bits",
    "takes-kinds-by-their-low-byte",
    "sends-a-bad-slow",
    "asks-zeros-of-no-slow",
    "clears-the-rest",
    "fills-up-with-ones",
    "writes-when-refused",
    "writes-when-too-long",
    "counts-bytes",
    "counts-orders-from-1",
    "tells-the-length-first",
];

fn driver(way: &str) -> PathBuf {
    let folder = Path::new(env!("CARGO_TARGET_TMPDIR")).join("composers");
    fs::create_dir_all(&folder).unwrap();
    let link = folder.join(way);
    let _ = fs::remove_file(&link);
    symlink(example("composer"), &link).unwrap();
    link
}

fn compared(driver: &Path) -> Tally {
    let mut tally = Tally::default();
    checker::run(driver, &mut tally, composing::check).unwrap();
    tally
}

#[test]
fn a_right_composer_passes() {
    let tally = compared(&driver("right"));
    assert!(tally.all_passed(), "{tally}");
}

#[test]
fn a_wrong_composer_is_rejected() {
    for way in WAYS {
        let tally = compared(&driver(way));
        assert!(!tally.all_passed(), "{way} passed");
        // It does its part as a driver all the same.
        let text = tally.to_string();
        assert!(
            !text.contains("its end:") && !text.contains("within this call"),
            "{way}: {text}"
        );
    }
}
