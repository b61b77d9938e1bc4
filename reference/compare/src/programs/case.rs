//! The programs on one case, by each delivery of the input; those for which
//! it is not meant refuse it, and are given it as a file.

use super::delivery::Delivery;
use super::expected::{Expected, Imagined};
use super::fault::{judge, Fault};
use super::running::{piped, Running};
use super::scratch::Scratch;
use super::under_test::UnderTest;
use crate::tally::Check;
use crate::words::words;
use cases::Case;
use reader::Program;
use std::ffi::OsStr;
use std::io;
use std::os::unix::ffi::OsStrExt;
use std::path::Path;
use std::sync::Arc;
use std::time::Instant;

/// A case with its input's file in the scratch folder.
struct Given<'a> {
    under_test: &'a UnderTest,
    scratch: &'a Scratch,
    case: &'a Case,
    input: Arc<[u8]>,
    file: String,
}

pub fn check(under_test: &UnderTest, case: &Case, scratch: &Scratch) -> Vec<Check> {
    let file = match scratch.file(case) {
        Ok(file) => file,
        Err(error) => return vec![unreadable(case, &error)],
    };
    let given = Given {
        under_test,
        scratch,
        case,
        input: Arc::from(&case.input[..]),
        file,
    };
    let mut checks = Vec::new();
    for program in Program::ALL {
        let plain = Expected::on(program, case);
        let is_meant = (program == Program::Compose) == case.holds_orders();
        let fits = |delivery: &Delivery| {
            let takes = delivery.takes(given.input.len(), scratch);
            takes && (is_meant || *delivery == Delivery::File)
        };
        for delivery in Delivery::ALL.into_iter().filter(fits) {
            let expected = given.expected(program, delivery, &plain);
            let fault = under_test.run(program, |path| {
                given.run(path, program, delivery, &expected)
            });
            let name = format!("{}, {}, {}", program.name(), case.name, delivery.name());
            checks.push(Check { name, fault });
        }
    }
    checks
}

fn unreadable(case: &Case, error: &io::Error) -> Check {
    Check {
        name: case.name.clone(),
        fault: Some(Fault::Unreadable(error.to_string())),
    }
}

impl Given<'_> {
    /// The separate reader is run anew only where its words are others.
    fn expected(&self, program: Program, delivery: Delivery, plain: &Expected) -> Expected {
        let file = delivery.words(&self.file);
        let expected = if file.is_empty() || plain.said.is_empty() {
            plain.clone()
        } else {
            let words = [words(program, self.case), file].concat();
            Expected::of(program, &words, Imagined::new(&self.input))
        };
        self.under_test.expected(expected)
    }

    /// One run; its fault, if any.
    fn run(
        &self,
        path: &Path,
        program: Program,
        delivery: Delivery,
        expected: &Expected,
    ) -> io::Result<Option<Fault>> {
        let deadline = Instant::now() + self.under_test.run_limit;
        let mut command = piped(path);
        command.current_dir(self.scratch.folder());
        let words = [words(program, self.case), delivery.words(&self.file)].concat();
        command.args(words.into_iter().map(OsStr::from_bytes));
        command.stdin(delivery.stdio(self.scratch, &self.file)?);
        let faults = delivery.faults(self.input.len(), expected.printed.len());
        faults.put_into(&mut command, program.name());
        let mut running = Running::start(command, None, expected)?;
        if let Some(pipe) = running.input() {
            delivery.feed(pipe, &self.input);
        }
        Ok(judge(expected, &running.finish(deadline)?))
    }
}
