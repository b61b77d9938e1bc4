//! What `compose` prints, read by `station`: both programs under test, one
//! behind the other, against the separate reader's two.

use super::expected::Expected;
use super::fault::judge;
use super::running::{piped, Run, Running};
use super::scratch::Scratch;
use super::under_test::UnderTest;
use crate::printed::printed;
use crate::tally::Check;
use cases::Case;
use reader::Program;
use std::fs::{self, File};
use std::io;
use std::path::Path;
use std::process::Stdio;
use std::time::Instant;

/// The check of a text of orders; none if it is refused.
pub fn check(under_test: &UnderTest, text: &Case, scratch: &Scratch) -> Vec<Check> {
    let lines = printed(Program::Compose, &text.input);
    if lines.starts_with(b"!") {
        return Vec::new();
    }
    let listing = under_test.expected(Expected::plain(Program::Station, &lines));
    let composed = under_test.expected(Expected::plain(Program::Compose, &text.input));
    let name = text.name.replace('/', "-");
    let [orders, stream] = ["orders", "stream"].map(|end| format!("{name}.{end}"));
    let fault = under_test.run(Program::Compose, |compose| {
        fs::write(scratch.folder().join(&orders), &text.input)?;
        let sent = run(
            under_test,
            compose,
            &composed,
            &scratch.folder().join(&orders),
        )?;
        let stream = scratch.folder().join(&stream);
        fs::write(&stream, sent.printed)?;
        Ok(under_test.run(Program::Station, |station| {
            let read = run(under_test, station, &listing, &stream)?;
            Ok(judge(&listing, &read))
        }))
    });
    vec![Check {
        name: format!("station, {}, as compose prints it", text.name),
        fault,
    }]
}

/// One run with a file as standard input.
fn run(under_test: &UnderTest, path: &Path, expected: &Expected, input: &Path) -> io::Result<Run> {
    let mut command = piped(path);
    command.stdin(Stdio::from(File::open(input)?));
    let deadline = Instant::now() + under_test.run_limit;
    Running::start(command, None, expected)?.finish(deadline)
}
