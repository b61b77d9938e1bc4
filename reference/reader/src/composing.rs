//! A run of the program `compose`, but for its reading and writing: orders in,
//! hexadecimal lines of their stream out (document 02, F-2).

use crate::compose::Composer;
use crate::listing::{push_lines, push_refused};
use crate::order_line::{order_line, WrongLine, WrongOrders, LINE_CHARACTERS, STREAM_BYTES};
use crate::plan::Plan;
use crate::program::Run;
use crate::refusal::Refused;

pub struct Composing {
    composer: Composer,
    /// The line under way, up to the first character that is too many.
    line: Vec<u8>,
    lines_ended: u64,
    out: Vec<u8>,
    refused: Option<WrongOrders>,
}

impl Composing {
    pub fn start() -> Composing {
        Composing {
            composer: Composer::start(Plan::DEFAULT, STREAM_BYTES),
            line: Vec::new(),
            lines_ended: 0,
            out: Vec::new(),
            refused: None,
        }
    }

    fn end_line(&mut self) {
        self.lines_ended += 1;
        let (line, taken) = (self.lines_ended, self.take_order());
        self.line.clear();
        if let Err(why) = taken {
            self.refuse(WrongOrders::Line { line, why });
        }
    }

    fn take_order(&mut self) -> Result<(), WrongLine> {
        match order_line(&self.line)? {
            None => Ok(()),
            Some(order) => self.composer.add(&order).map_err(WrongLine::Unfit),
        }
    }

    fn refuse(&mut self, wrong: WrongOrders) {
        push_refused(&mut self.out, wrong.number(), wrong.line());
        self.refused = Some(wrong);
    }
}

impl Run for Composing {
    fn take(&mut self, character: u8) {
        if character == b'\n' {
            self.end_line();
        } else if self.line.len() <= LINE_CHARACTERS {
            self.line.push(character);
        }
    }

    /// No digit is printed ahead of this: a later line may be refused.
    fn finish(&mut self) {
        // Nothing after the last line feed is no line.
        if self.refused.is_none() && !self.line.is_empty() {
            self.end_line();
        }
        if self.refused.is_some() {
            return;
        }
        match self.composer.stream() {
            Some(stream) => push_lines(&mut self.out, stream.bytes),
            None => self.refuse(WrongOrders::TooLong),
        }
    }

    fn refused(&self) -> Option<Refused> {
        self.refused.map(Refused::Orders)
    }

    fn out(&mut self) -> &mut Vec<u8> {
        &mut self.out
    }
}
