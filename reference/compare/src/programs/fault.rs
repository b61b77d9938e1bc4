//! What can be wrong with a run of a program, or with a golden file.

use super::difference::{difference, Difference};
use super::ended::End;
use super::expected::Expected;
use super::running::Run;
use std::fmt;

#[derive(Clone, Debug, PartialEq, Eq)]
pub enum Fault {
    Differs(Difference),
    /// Killed at the time limit, with what it had printed till then.
    Hangs(Option<Difference>),
    /// It printed the right output, but said something else.
    Says(Difference),
    /// It printed and said what is right, but ended in another way.
    Ends {
        expected: End,
        got: End,
    },
    /// The records of this line, counted from 1, did not come while the
    /// pipe stayed open.
    LagsAtLine(usize),
    NotStarted(String),
    /// Not run, as it hung often enough.
    GivenUp,
    Unreadable(String),
    /// A golden file that belongs to no case.
    Stray,
}

/// The fault of a run that has ended, if any.
pub fn judge(expected: &Expected, run: &Run) -> Option<Fault> {
    let printed = difference(&expected.printed, &run.printed);
    let Some(got) = run.end else {
        return Some(Fault::Hangs(printed));
    };
    let to_be_said = expected.to_be_said(&run.said);
    let said = || difference(&to_be_said, &run.said).map(Fault::Says);
    let expected = expected.end;
    let ended = || (expected != got).then_some(Fault::Ends { expected, got });
    printed.map(Fault::Differs).or_else(said).or_else(ended)
}

impl fmt::Display for Fault {
    fn fmt(&self, f: &mut fmt::Formatter) -> fmt::Result {
        match self {
            Fault::Differs(difference) => write!(f, "{difference}"),
            Fault::Hangs(None) => write!(f, "does not end; its output so far is right"),
            Fault::Hangs(Some(difference)) => write!(f, "does not end; {difference}"),
            Fault::Says(difference) => write!(f, "standard error {difference}"),
            Fault::Ends { expected, got } => {
                write!(
                    f,
                    "ends with {got}, expected {expected}; its output is right"
                )
            }
            Fault::LagsAtLine(line) => {
                write!(f, "the records of line {line} do not come in time")
            }
            Fault::NotStarted(error) => write!(f, "cannot be started: {error}"),
            Fault::GivenUp => write!(f, "not run, as the program hung before"),
            Fault::Unreadable(error) => write!(f, "cannot be read: {error}"),
            Fault::Stray => write!(f, "belongs to no case"),
        }
    }
}
