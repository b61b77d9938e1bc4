//! The programs started in a situation. A shell closes descriptors, ignores
//! signals and limits files ahead of the program, and then is it.

use super::disk;
use super::fault::{judge, Fault};
use super::running::{Run, Running};
use super::scratch::Scratch;
use super::situation::{ErrorOutput, Input, Output, Situation};
use super::under_test::UnderTest;
use crate::tally::Check;
use reader::Program;
use std::ffi::OsStr;
use std::fs::{self, File, OpenOptions};
use std::io::{self, PipeWriter, Read, Write};
use std::os::unix::ffi::OsStrExt;
use std::path::{Path, PathBuf};
use std::process::{Command, Stdio};
use std::thread;
use std::time::{Duration, Instant};

const FULL: &str = "/dev/full";

/// A folder to be named by a word, or to be standard input.
pub const FOLDER: &str = "folder";

pub fn check(under_test: &UnderTest, situation: &Situation, scratch: &Scratch) -> Vec<Check> {
    let file = scratch.folder().join(OsStr::from_bytes(&situation.file));
    let written = fs::write(file, &situation.contents);
    let programs = situation.programs.iter();
    programs
        .map(|&program| Check {
            name: format!("{}, {}", program.name(), situation.name),
            fault: match &written {
                Ok(()) => under_test.run(program, |path| {
                    run(under_test, path, program, situation, scratch)
                }),
                Err(error) => Some(Fault::Unreadable(error.to_string())),
            },
        })
        .collect()
}

fn run(
    under_test: &UnderTest,
    path: &Path,
    program: Program,
    situation: &Situation,
    scratch: &Scratch,
) -> io::Result<Option<Fault>> {
    let expected = under_test.expected_there(situation, program);
    let deadline = Instant::now() + under_test.run_limit;
    let mut command = shell(path, program, situation, scratch);
    command.stdin(input(situation, scratch)?);
    command.stderr(match situation.error {
        ErrorOutput::Kept | ErrorOutput::Closed | ErrorOutput::Joined => Stdio::piped(),
        ErrorOutput::Full => Stdio::from(OpenOptions::new().write(true).open(FULL)?),
    });
    let limited = limited_file(program, situation, scratch);
    let (output, reader) = output(situation.output, &limited)?;
    command.stdout(output);
    let running = Running::start(command, reader, &expected)?;
    let mut run: Run = running.finish(deadline)?;
    if matches!(situation.output, Output::Limited(_)) {
        run.printed = fs::read(limited)?;
    }
    Ok(judge(&expected, &run))
}

fn shell(path: &Path, program: Program, situation: &Situation, scratch: &Scratch) -> Command {
    let mut shell = Command::new("/bin/sh");
    shell.arg("-c").arg(script(situation)).arg("sh").arg(path);
    let words = situation.words_of(program).into_iter();
    shell.args(words.map(OsStr::from_bytes));
    shell.current_dir(scratch.folder());
    situation.faults.put_into(&mut shell, program.name());
    shell
}

/// What the shell does.
fn script(situation: &Situation) -> String {
    let ahead = match situation.output {
        Output::Disk(pages) => return disk::script(pages),
        Output::Limited(blocks) => format!("trap '' XFSZ; ulimit -f {blocks}; "),
        Output::Leaves { ignored: true, .. } => "trap '' PIPE; ".to_string(),
        _ => String::new(),
    };
    let close = |closed: bool, how: &'static str| if closed { how } else { "" };
    let input = close(situation.input == Input::Closed, " <&-");
    let output = close(situation.output == Output::Closed, " >&-");
    let error = match situation.error {
        ErrorOutput::Closed => " 2>&-",
        ErrorOutput::Joined => " 2>&1",
        ErrorOutput::Kept | ErrorOutput::Full => "",
    };
    format!("{ahead}exec \"$@\"{input}{output}{error}")
}

fn input(situation: &Situation, scratch: &Scratch) -> io::Result<Stdio> {
    let name = match situation.input {
        Input::Empty | Input::Closed => return Ok(Stdio::null()),
        Input::File => OsStr::from_bytes(&situation.file),
        Input::Folder => OsStr::new(FOLDER),
    };
    Ok(Stdio::from(File::open(scratch.folder().join(name))?))
}

fn limited_file(program: Program, situation: &Situation, scratch: &Scratch) -> PathBuf {
    let mut name = situation.file.clone();
    name.extend(format!(".{}", program.name()).bytes());
    scratch.folder().join(OsStr::from_bytes(&name))
}

/// The output of a program to be started, and what reads it, if that is not
/// the command's own pipe.
type Ends = (Stdio, Option<Box<dyn Read + Send>>);

/// A pipe whose reader is gone ahead of the program. What is started beside
/// it holds the reader too, until it runs its own program.
fn unread() -> io::Result<PipeWriter> {
    let (_, mut writer) = io::pipe()?;
    while writer.write(&[0]).is_ok() {
        thread::sleep(Duration::from_millis(1));
    }
    Ok(writer)
}

fn output(output: Output, limited: &Path) -> io::Result<Ends> {
    Ok(match output {
        Output::Kept | Output::Closed | Output::Disk(_) => (Stdio::piped(), None),
        Output::Full => (
            Stdio::from(OpenOptions::new().write(true).open(FULL)?),
            None,
        ),
        Output::Limited(_) => (Stdio::from(File::create(limited)?), None),
        Output::Leaves { after: 0, .. } => (Stdio::from(unread()?), None),
        Output::Leaves { after, .. } => {
            let (reader, writer) = io::pipe()?;
            (
                Stdio::from(writer),
                Some(Box::new(reader.take(after as u64))),
            )
        }
    })
}
