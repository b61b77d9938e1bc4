//! The situations in which the programs are started: every word, message and
//! exit status, and every failure of the system.

mod accept;
mod calls;
mod compose;
mod inputs;
mod outputs;
mod reply;
mod ways;
mod words;

use super::disk;
use super::scratch::Scratch;
use super::situation::Situation;
use super::started::FOLDER;
use std::fs;
use std::io;
use std::os::unix::fs::symlink;

/// A capture whose two lines have two records each.
pub const GOOD: &[u8] = b"B5C074\nE0B080\n";

/// One whose second line is refused.
pub const REFUSED: &[u8] = b"B5C074\ne0b080\nE0B080\n";

/// One without records.
pub const SILENT: &[u8] = b"00\n\n0000\n";

/// A link to itself.
const LOOP: &str = "loop";

/// EnDataTake, then as many triggers as fit into lines: more output than a
/// pipe holds, from an input of more than two blocks.
pub fn large() -> Vec<u8> {
    let line = "E8".repeat(32) + "\n";
    ("B5C000\n".to_string() + &line.repeat(2_100)).into_bytes()
}

/// What there is to make the system fail.
#[derive(Clone, Copy, Debug, PartialEq, Eq)]
pub struct Means {
    /// Calls can be made to fail.
    pub faults: bool,
    /// A small file system can be mounted.
    pub disk: bool,
}

impl Means {
    pub const ALL: Means = Means {
        faults: true,
        disk: true,
    };

    /// Puts into the scratch folder what the situations need there, and says
    /// what of it can be had.
    pub fn prepare(scratch: &Scratch) -> io::Result<Means> {
        fs::create_dir(scratch.folder().join(FOLDER))?;
        symlink(LOOP, scratch.folder().join(LOOP))?;
        Ok(Means {
            faults: scratch.faults().is_ok(),
            disk: disk::can_be_had(scratch),
        })
    }
}

/// All for which there are the means.
pub fn situations(means: Means) -> Vec<Situation> {
    let mut all = words::situations();
    all.extend(inputs::situations());
    all.extend(outputs::situations());
    all.extend(accept::situations());
    all.extend(compose::situations());
    all.extend(reply::situations());
    if means.faults {
        all.extend(calls::situations());
        all.extend(accept::calls());
        all.extend(compose::calls());
        all.extend(reply::calls());
    }
    if means.disk {
        all.extend(outputs::full_disk());
        all.extend(accept::full_disk());
        all.extend(compose::full_disk());
        all.extend(reply::full_disk());
    }
    all
}
