//! A run of the program `reply`, but for its reading and writing: hexadecimal
//! lines of the line back in, what they hold of a reply out (document 02,
//! F-12).

use crate::hex::HexLine;
use crate::hunting::bit_at;
use crate::limits::CLOCK_LIMIT;
use crate::listing::{push_refused, push_reply};
use crate::program::Run;
use crate::refusal::{Refusal, Refused, Why};
use crate::reply::{DataBits, Reply, ReplyReader};
use crate::tray::store_bit;
use std::fmt;

/// Why an input that has ended holds no whole reply.
#[derive(Clone, Copy, Debug, PartialEq, Eq)]
pub enum NotWhole {
    NoHeader,
    CutShort { complete: u64, expected: u64 },
}

impl fmt::Display for NotWhole {
    fn fmt(&self, f: &mut fmt::Formatter) -> fmt::Result {
        match self {
            NotWhole::NoHeader => write!(f, "no header 11101"),
            NotWhole::CutShort { complete, expected } => {
                write!(f, "cut short: {complete} of {expected} bits")
            }
        }
    }
}

pub struct Replying {
    expected: DataBits,
    reader: ReplyReader,
    /// The complete data bits.
    data: Vec<u8>,
    line: HexLine,
    lines_ended: u64,
    out: Vec<u8>,
    refused: Option<Refused>,
}

impl Replying {
    pub fn start(expected: DataBits) -> Replying {
        Replying {
            expected,
            reader: ReplyReader::start(expected),
            data: vec![0; expected.bytes()],
            line: HexLine::default(),
            lines_ended: 0,
            out: Vec::new(),
            refused: None,
        }
    }

    fn end_line(&mut self) {
        self.lines_ended += 1;
        let line = std::mem::take(&mut self.line);
        match line.bytes() {
            Ok(bytes) => self.read(bytes),
            Err(why) => {
                push_refused(&mut self.out, why.number(), self.lines_ended);
                self.refuse_line(why);
            }
        }
    }

    fn refuse_line(&mut self, why: Why) {
        let line = self.lines_ended;
        self.refused = Some(Refused::Line(Refusal { line, why }));
    }

    /// Reads the bits of a line. One whose bits pass the last cycle is
    /// rejected as a decoder rejects it.
    fn read(&mut self, bytes: &[u8]) {
        let bits = bytes.len() as u64 * 8;
        if bits > CLOCK_LIMIT - self.reader.taken() {
            return self.refuse_line(Why::Clock);
        }
        for place in 0..bits {
            if let Some(data_bit) = self.reader.take(bit_at(bytes, place)) {
                store_bit(&mut self.data, data_bit);
            }
        }
        if self.is_whole() {
            self.print();
        }
    }

    fn is_whole(&self) -> bool {
        self.reader.answer() == Reply::Whole
    }

    fn print(&mut self) {
        push_reply(&mut self.out, &self.reader, &self.data);
    }
}

impl Run for Replying {
    fn take(&mut self, character: u8) {
        if character == b'\n' {
            self.end_line();
        } else {
            self.line.push(character);
        }
    }

    fn finish(&mut self) {
        // Nothing after the last line feed is no line.
        if !self.is_over() && self.line.started() {
            self.end_line();
        }
        if self.is_over() {
            return;
        }
        self.print();
        let expected = self.expected.count();
        let not_whole = match self.reader.answer() {
            Reply::Whole => return,
            Reply::NoHeader => NotWhole::NoHeader,
            Reply::CutShort(complete) => NotWhole::CutShort { complete, expected },
        };
        self.refused = Some(Refused::Reply(not_whole));
    }

    fn is_over(&self) -> bool {
        self.refused.is_some() || self.is_whole()
    }

    fn refused(&self) -> Option<Refused> {
        self.refused
    }

    fn out(&mut self) -> &mut Vec<u8> {
        &mut self.out
    }
}
