//! The count of what passed, and the faults.

use crate::programs::fault::Fault;
use std::fmt;

/// One comparison, passed when it has no fault.
#[derive(Clone, Debug)]
pub struct Check {
    pub name: String,
    pub fault: Option<Fault>,
}

#[derive(Default)]
pub struct Tally {
    notes: Vec<String>,
    passed: usize,
    failed: Vec<String>,
}

/// Faults that are printed one by one; the rest are only counted.
const PRINTED: usize = 40;

impl Tally {
    pub fn add(&mut self, checks: Vec<Check>) {
        for Check { name, fault } in checks {
            self.count(name, fault);
        }
    }

    /// Counts one comparison, passed when it has no fault.
    pub fn count(&mut self, name: impl fmt::Display, fault: Option<impl fmt::Display>) {
        match fault {
            None => self.passed += 1,
            Some(fault) => self.failed.push(format!("{name}: {fault}")),
        }
    }

    /// Something that a reader of the count must know.
    pub fn note(&mut self, note: impl fmt::Display) {
        self.notes.push(note.to_string());
    }

    pub fn all_passed(&self) -> bool {
        self.failed.is_empty()
    }
}

impl fmt::Display for Tally {
    fn fmt(&self, f: &mut fmt::Formatter) -> fmt::Result {
        for note in &self.notes {
            writeln!(f, "{note}")?;
        }
        for fault in self.failed.iter().take(PRINTED) {
            writeln!(f, "FAILED {fault}")?;
        }
        if self.failed.len() > PRINTED {
            writeln!(f, "and {} more", self.failed.len() - PRINTED)?;
        }
        write!(f, "{} passed, {} failed", self.passed, self.failed.len())
    }
}
