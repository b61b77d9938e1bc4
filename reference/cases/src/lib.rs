//! Inputs for readers of the command line: streams of bits put together,
//! random ones, and lists of cases for the programs. The commands' numbers
//! are written here from the papers once more: this package depends on
//! nothing but the standard library and knows no reader, so that a wrong
//! number of a reader shows.

#![forbid(unsafe_code)]

pub mod code;
mod fixed;
pub mod generate;
mod generated;
pub mod order_texts;
pub mod orders;
pub mod pulses;
pub mod random;
pub mod replies;
pub mod spaced;
pub mod stream;

pub use fixed::{fixed, RECEIVED};
pub use generated::{composed, crowded, generated, hits, noisy, pulsed, replied};
pub use random::Random;
pub use stream::Stream;

/// One input of the programs.
#[derive(Clone, Debug)]
pub struct Case {
    /// Serves as a path: folders by subject, then a file's name.
    pub name: String,
    pub input: Vec<u8>,
    /// The word by which `reply` is told how many bits to expect (document 02,
    /// F-12), if the case is meant for it.
    pub count: Option<String>,
    /// Whether it has golden files: its input and what the programs print,
    /// for a reviewer to read.
    pub golden: bool,
}

impl Case {
    fn new(name: impl Into<String>, input: impl Into<Vec<u8>>) -> Case {
        Case {
            name: name.into(),
            input: input.into(),
            count: None,
            golden: false,
        }
    }

    /// A stream as hexadecimal lines, its last byte filled up with zeros.
    fn stream(name: impl Into<String>, stream: &Stream) -> Case {
        Case::new(name, stream.lines())
    }

    /// Hexadecimal lines for `reply`, which is told to expect so many bits.
    fn reply(name: impl Into<String>, count: u64, input: impl Into<Vec<u8>>) -> Case {
        Case {
            count: Some(count.to_string()),
            ..Case::new(name, input)
        }
    }

    /// Whether it is a text of orders (document 02, F-2), not hexadecimal
    /// lines.
    pub fn holds_orders(&self) -> bool {
        let folders = ["compose/", "order-texts/"];
        folders.iter().any(|folder| self.name.starts_with(folder))
    }

    fn golden_if(mut self, golden: bool) -> Case {
        self.golden = golden;
        self
    }
}

/// The cases that have golden files: short ones, in text.
pub fn golden() -> Vec<Case> {
    fixed().into_iter().filter(|case| case.golden).collect()
}
