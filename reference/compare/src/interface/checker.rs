//! Calls made through a driver while the comparison goes on.

use super::call::{Call, Empty, Take};
use super::difference::{difference, reply_bytes};
use super::expected::{expected, Expected};
use crate::tally::Tally;
use std::io::{self, BufReader, ErrorKind, Read, Write};
use std::path::Path;
use std::process::{ChildStdin, Command, Stdio};
use std::sync::mpsc::{sync_channel, Receiver, SyncSender};
use std::sync::Arc;
use std::thread;

/// Checks that may wait for their replies at once.
const MOST_PENDING: usize = 256;

const BLOCK: usize = 1 << 20;

/// Asks a driver for calls. Another thread compares the replies.
pub struct Checker {
    input: ChildStdin,
    pending: SyncSender<Pending>,
}

/// A check that is not counted yet.
enum Pending {
    /// Waits for the driver's reply.
    Call {
        name: String,
        expected: Arc<Expected>,
    },
    /// Decided without the driver.
    Decided { name: String, fault: Option<String> },
}

impl Checker {
    /// Makes a call, and one more with NULL where a slice of length 0 is
    /// lent. Answers what is expected of it. An error only ends the run: what
    /// broke is found where the reply is read.
    pub fn check(&mut self, name: String, call: &Call) -> io::Result<Arc<Expected>> {
        let expected = Arc::new(expected(call));
        if call.lends_empty() {
            let name = format!("{name}, with NULL");
            self.ask(name, call.request(Empty::Null), &expected)?;
        }
        self.ask(name, call.request(Empty::Block), &expected)?;
        Ok(expected)
    }

    /// A taking call: what is expected of it, and the call afterwards.
    pub fn take(&mut self, name: String, take: Take) -> io::Result<(u64, Take)> {
        let expected = self.check(name, &Call::Take(take))?;
        match &expected.after {
            Call::Take(after) => Ok((expected.answer, after.clone())),
            _ => unreachable!("a call stays what it is"),
        }
    }

    /// A call that the case says to be answered with this number; that the
    /// separate reader does so too is a check of its own.
    pub fn check_number(&mut self, name: String, number: u64, call: &Call) -> io::Result<()> {
        let expected = self.check(name.clone(), call)?;
        let answer = expected.answer;
        let fault = (answer != number)
            .then(|| format!("meant for number {number}, the separate reader answers {answer}"));
        self.report(format!("{name}, its number"), fault)
    }

    /// Counts what was decided without the driver.
    pub fn report(&mut self, name: String, fault: Option<String>) -> io::Result<()> {
        self.send(Pending::Decided { name, fault })
    }

    /// Writes first, so that no reply is waited for that was not asked for.
    fn ask(&mut self, name: String, request: Vec<u8>, expected: &Arc<Expected>) -> io::Result<()> {
        let written = self.input.write_all(&request);
        let expected = Arc::clone(expected);
        self.send(Pending::Call { name, expected })?;
        written
    }

    fn send(&mut self, check: Pending) -> io::Result<()> {
        self.pending.send(check).map_err(io::Error::other)
    }
}

/// Starts a driver, makes all calls of `cases` through it and counts.
pub fn run(
    driver: &Path,
    tally: &mut Tally,
    cases: impl FnOnce(&mut Checker) -> io::Result<()>,
) -> io::Result<()> {
    let mut child = Command::new(driver)
        .stdin(Stdio::piped())
        .stdout(Stdio::piped())
        .spawn()?;
    let input = child.stdin.take().expect("the input is a pipe");
    let output = child.stdout.take().expect("the output is a pipe");
    let (pending, checks) = sync_channel(MOST_PENDING);
    let program = driver.display().to_string();
    let program = &program[..];
    let judged = &mut *tally;
    let ended = thread::scope(|scope| {
        scope.spawn(move || {
            let output = BufReader::with_capacity(BLOCK, output);
            judge(output, checks, |name, fault| {
                judged.count(format_args!("{program}, {name}"), fault);
            });
        });
        // Dropped when the cases are through, which ends driver and judge.
        let mut checker = Checker { input, pending };
        cases(&mut checker)
    });
    let status = child.wait()?;
    let fault = match ended {
        _ if !status.success() => Some(format!("it ended with {status}")),
        Err(error) => Some(format!("the comparison stopped: {error}")),
        Ok(()) => None,
    };
    tally.count(format_args!("{program}, its end"), fault);
    Ok(())
}

/// Compares each reply with what is expected, until one does not come.
fn judge(
    mut output: impl Read,
    checks: Receiver<Pending>,
    mut count: impl FnMut(String, Option<String>),
) {
    let mut reply = Vec::new();
    for check in checks {
        let (name, expected) = match check {
            Pending::Decided { name, fault } => {
                count(name, fault);
                continue;
            }
            Pending::Call { name, expected } => (name, expected),
        };
        reply.resize(reply_bytes(&expected), 0);
        if let Err(error) = output.read_exact(&mut reply) {
            let fault = match error.kind() {
                ErrorKind::UnexpectedEof => "the driver ended within this call".to_string(),
                _ => format!("no answer could be read: {error}"),
            };
            count(name, Some(fault));
            return;
        }
        count(name, difference(&expected, &reply));
    }
    let rest = output.read(&mut [0]);
    let fault = (!matches!(rest, Ok(0))).then_some("more was written than asked for");
    count("after the last call".to_string(), fault.map(str::to_string));
}
