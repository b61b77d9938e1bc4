//! A small file system, where one can be mounted: in a name space of its own,
//! so that nothing of it is seen or remains.

use super::scratch::Scratch;
use super::situation::PAGE;
use super::started::FOLDER;
use std::process::{Command, Stdio};

/// A shell's command that runs its words with standard output in a file of a
/// file system of so many pages, and then prints that file.
pub fn script(pages: usize) -> String {
    let bytes = pages * PAGE;
    format!(
        "exec unshare -rm /bin/sh -c 'mount -t tmpfs -o size={bytes} none {FOLDER} || exit 99; \
         \"$@\" >{FOLDER}/out; status=$?; cat {FOLDER}/out; exit $status' sh \"$@\""
    )
}

/// Whether one can be mounted on the scratch folder's folder.
pub fn can_be_had(scratch: &Scratch) -> bool {
    let mut shell = Command::new("/bin/sh");
    shell.arg("-c").arg(script(1)).args(["sh", "true"]);
    shell.current_dir(scratch.folder());
    let quiet = shell.stdout(Stdio::null()).stderr(Stdio::null());
    quiet.status().is_ok_and(|status| status.success())
}
