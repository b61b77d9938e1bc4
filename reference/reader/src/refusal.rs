//! Why a program refuses a line, as a number of the refusal table and in
//! words; and what else it may refuse.

use crate::accept::Fault;
use crate::order_line::WrongOrders;
use crate::replying::NotWhole;
use std::fmt;

/// Digits that a line may have at most.
pub const LINE_DIGITS: u64 = 64;

/// What a program refuses.
#[derive(Clone, Copy, Debug, PartialEq, Eq)]
pub enum Refused {
    Line(Refusal),
    /// A pattern of a stream (document 02, F-8).
    Pattern(Fault),
    /// A text of orders (document 02, F-2).
    Orders(WrongOrders),
    /// An input without a whole reply (document 02, F-12).
    Reply(NotWhole),
}

impl fmt::Display for Refused {
    fn fmt(&self, f: &mut fmt::Formatter) -> fmt::Result {
        match self {
            Refused::Line(line) => write!(f, "{line}"),
            Refused::Pattern(fault) => write!(f, "{fault}"),
            Refused::Orders(wrong) => write!(f, "{wrong}"),
            Refused::Reply(not_whole) => write!(f, "{not_whole}"),
        }
    }
}

/// A refused line.
#[derive(Clone, Copy, Debug, PartialEq, Eq)]
pub struct Refusal {
    /// The line's number, from 1.
    pub line: u64,
    pub why: Why,
}

#[derive(Clone, Copy, Debug, PartialEq, Eq)]
pub enum Why {
    /// Its bits would pass the last clock cycle.
    Clock,
    /// The first character that is no digit, with its place from 1.
    Character { place: u64, byte: u8 },
    /// The count of digits is odd, or above 64.
    Digits(u64),
}

impl Why {
    /// The number of the refusal table.
    pub fn number(self) -> u8 {
        match self {
            Why::Clock => 6,
            Why::Character { .. } => 7,
            Why::Digits(_) => 8,
        }
    }
}

impl fmt::Display for Refusal {
    fn fmt(&self, f: &mut fmt::Formatter) -> fmt::Result {
        write!(f, "line {}: {}", self.line, self.why)
    }
}

impl fmt::Display for Why {
    fn fmt(&self, f: &mut fmt::Formatter) -> fmt::Result {
        match *self {
            Why::Clock => write!(f, "its bits pass the last clock cycle"),
            Why::Character { place, byte } => write!(f, "character {place} is {}", kind(byte)),
            Why::Digits(count) if count > LINE_DIGITS => {
                write!(f, "the count of digits is {count}, above {LINE_DIGITS}")
            }
            Why::Digits(count) => write!(f, "the count of digits is {count}, which is odd"),
        }
    }
}

/// What a character is that is no digit.
fn kind(byte: u8) -> String {
    match byte {
        b'\r' => "a carriage return".to_string(),
        b' ' => "a space".to_string(),
        b'\t' => "a tab".to_string(),
        b'a'..=b'z' => "a lower-case letter".to_string(),
        _ => format!("byte {byte}, none of 0-9 and A-F"),
    }
}
