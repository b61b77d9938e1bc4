//! A live pipe: each line's records, or what is refused in it, come before the
//! next line is written.

use super::expected::Expected;
use super::fault::{judge, Fault};
use super::running::{piped, Running, Waited};
use super::under_test::UnderTest;
use crate::printed::printed_so_far;
use crate::tally::Check;
use crate::words::words;
use cases::{fixed, generated, Case};
use reader::Program;
use std::ffi::OsStr;
use std::io::{self, Write};
use std::os::unix::ffi::OsStrExt;
use std::path::Path;
use std::process::Stdio;
use std::time::Instant;

pub struct Live {
    pub case: Case,
    /// The pipe stays open after the last line. A refused line, a pattern at
    /// fault or a whole reply has ended the run.
    pub left_open: bool,
    pub programs: Vec<Program>,
}

const READERS: &[Program] = &[
    Program::Station,
    Program::Reading,
    Program::Model,
    Program::Accept,
];
const ACCEPT: &[Program] = &[Program::Accept];
const COMPOSE: &[Program] = &[Program::Compose];
const REPLY: &[Program] = &[Program::Reply];

/// Programs, the name of their case, and whether the pipe stays open.
const CASES: [(&[Program], &str, bool); 27] = [
    (READERS, "paper/listing", false),
    (READERS, "frames/long-then-short", false),
    (READERS, "generated/000", false),
    (READERS, "refusals/lower-case", true),
    (READERS, "refusals/odd", true),
    (ACCEPT, "accept/across-empty-lines", false),
    (ACCEPT, "accept/cut-then-empty-lines", false),
    (ACCEPT, "accept/every-pair-by-bytes", false),
    (ACCEPT, "accept/unknown-at-once", true),
    (ACCEPT, "accept/unknown-across-empty-lines", true),
    (ACCEPT, "accept/close-across-a-line", true),
    (ACCEPT, "accept/line-odd-inside-a-pattern", true),
    (COMPOSE, "compose/just-the-zeros", false),
    (COMPOSE, "compose/first-11-zeros-beyond-64-bits", false),
    (COMPOSE, "compose/wrong-name-a-capture", true),
    (COMPOSE, "compose/wrong-frame-bits-after-a-reset", true),
    (COMPOSE, "compose/close-slow-after-ecr", true),
    (COMPOSE, "compose/first-10-ahead-of-9-in-a-later-line", true),
    (REPLY, "reply/no-header-line-feeds-only", false),
    (REPLY, "reply/cut-seven-cycles-then-empty-lines", false),
    (REPLY, "reply/cut-no-last-line-feed", false),
    (REPLY, "reply/whole-across-empty-lines", true),
    (REPLY, "reply/whole-lines-behind", true),
    (REPLY, "reply/whole-ahead-of-a-wrong-line", true),
    (REPLY, "reply/all-groups", true),
    (REPLY, "reply/line-odd-after-the-header", true),
    (REPLY, "reply/line-wrong-after-bits", true),
];

/// Inputs that fit into a pipe whole, so that no write waits.
pub fn cases() -> Vec<Live> {
    let all = [fixed(), generated(1)].concat();
    let live = |(programs, name, left_open): (&[Program], &str, bool)| {
        let case = all.iter().find(|case| case.name == name);
        Live {
            case: case.expect("a case's name").clone(),
            left_open,
            programs: programs.to_vec(),
        }
    };
    CASES.map(live).into()
}

/// Its programs on one live pipe.
pub fn check(under_test: &UnderTest, live: &Live) -> Vec<Check> {
    let check = |&program: &Program| Check {
        name: format!("{}, {}, on a live pipe", program.name(), live.case.name),
        fault: under_test.run(program, |path| run(under_test, path, program, live)),
    };
    live.programs.iter().map(check).collect()
}

fn run(
    under_test: &UnderTest,
    path: &Path,
    program: Program,
    live: &Live,
) -> io::Result<Option<Fault>> {
    let input = &live.case.input[..];
    let expected = under_test.expected(Expected::on(program, &live.case));
    let words = words(program, &live.case);
    let mut command = piped(path);
    command.args(words.iter().map(|word| OsStr::from_bytes(word)));
    command.stdin(Stdio::piped());
    let mut running = Running::start(command, None, &expected)?;
    let mut pipe = running.input();
    let mut written = 0;
    for (number, line) in (1..).zip(input.split_inclusive(|&byte| byte == b'\n')) {
        // A program that has ended too early shows in its output.
        let _ = pipe.as_mut().map(|pipe| pipe.write_all(line));
        written += line.len();
        let so_far = printed_so_far(program, &words, &input[..written]).len();
        match running.wait_for(so_far, Instant::now() + under_test.line_limit) {
            Waited::Came => {}
            Waited::NoMore => break,
            Waited::TooLong => return Ok(Some(Fault::LagsAtLine(number))),
        }
    }
    if !live.left_open {
        pipe = None;
    }
    let run = running.finish(Instant::now() + under_test.run_limit)?;
    drop(pipe);
    Ok(judge(&expected, &run))
}
