//! The programs: hexadecimal lines in, a listing out, or whether their bits
//! are accepted, or what they hold of a reply; and orders in, hexadecimal
//! lines of their stream out.

use crate::accept::{Fault, Judge};
use crate::composing::Composing;
use crate::decoder::Decoder;
use crate::hex::HexLine;
use crate::hunting::bit_at;
use crate::limits::CLOCK_LIMIT;
use crate::listing::{push_fault, push_frame, push_record, push_refused};
use crate::model::push_model;
use crate::refusal::{Refusal, Refused, Why};
use crate::reply::DataBits;
use crate::replying::Replying;
use crate::system::{write_all, Streams, System};
use std::io::{self, ErrorKind, Read, Write};

/// Bytes read, and written, at a time.
const BLOCK: usize = 65_536;

/// All print the line of a refused line, and the first three the records.
#[derive(Clone, Copy, Debug, PartialEq, Eq)]
pub enum Program {
    /// Document 01's station program: the frames too.
    Station,
    /// No more than that.
    Reading,
    /// The controller's state at the end of the run too.
    Model,
    /// The line of the first pattern at fault, if there is one (document 02,
    /// F-8).
    Accept,
    /// Hexadecimal lines of the stream that its orders make (document 02,
    /// F-2).
    Compose,
    /// The answer on a reply, and its complete bits (document 02, F-12).
    Reply,
}

/// What `reply` expects where nobody says how many bits, and the word that
/// says so.
const USUAL_BITS: DataBits = DataBits::new(16).unwrap();
const USUAL_WORD: &[u8] = b"16";

/// Prints every record and every frame.
pub fn station(input: impl Read, output: impl Write) -> io::Result<()> {
    Program::Station.list_all(input, output)
}

/// Prints the records only.
pub fn reading(input: impl Read, output: impl Write) -> io::Result<()> {
    Program::Reading.list_all(input, output)
}

/// Prints the records, then the state of the controller.
pub fn model(input: impl Read, output: impl Write) -> io::Result<()> {
    Program::Model.list_all(input, output)
}

/// Prints the answer on a reply of so many bits, and its complete bits.
pub fn reply(expected: DataBits, input: impl Read, output: impl Write) -> io::Result<()> {
    listed(run_reply(expected, &mut Streams(input, output)))
}

/// Without messages.
fn listed(ended: Result<Option<Refused>, Failure>) -> io::Result<()> {
    match ended {
        Ok(_) => Ok(()),
        Err(Failure::Read(error) | Failure::Write(error)) => Err(error),
    }
}

impl Program {
    pub const ALL: [Program; 6] = [
        Program::Station,
        Program::Reading,
        Program::Model,
        Program::Accept,
        Program::Compose,
        Program::Reply,
    ];

    /// Those that print records.
    pub const LISTING: [Program; 3] = [Program::Station, Program::Reading, Program::Model];

    /// The name of its executable.
    pub fn name(self) -> &'static str {
        match self {
            Program::Station => "station",
            Program::Reading => "reading",
            Program::Model => "model",
            Program::Accept => "accept",
            Program::Compose => "compose",
            Program::Reply => "reply",
        }
    }

    /// The words ahead of the file's name, if nobody gives others.
    pub fn words(self) -> &'static [&'static [u8]] {
        match self {
            Program::Reply => &[USUAL_WORD],
            _ => &[],
        }
    }

    /// The listing of an input by these words, without messages.
    pub fn list_all(self, input: impl Read, output: impl Write) -> io::Result<()> {
        listed(self.run(&mut Streams(input, output)))
    }

    /// Reads the input to its end, or to what ends the run, and writes its
    /// listing.
    pub fn run(self, system: &mut impl System) -> Result<Option<Refused>, Failure> {
        match self {
            Program::Compose => read_all(Composing::start(), system),
            Program::Reply => run_reply(USUAL_BITS, system),
            _ => read_all(Listing::start(self), system),
        }
    }
}

/// `reply`, told to expect so many bits.
pub fn run_reply(expected: DataBits, system: &mut impl System) -> Result<Option<Refused>, Failure> {
    read_all(Replying::start(expected), system)
}

/// One run of a program, but for its reading and writing.
pub trait Run {
    fn take(&mut self, character: u8);

    /// The end of the input, or of the run ahead of it.
    fn finish(&mut self);

    /// Whether the run has ended, so that nothing more is read.
    fn is_over(&self) -> bool {
        self.refused().is_some()
    }

    /// What is refused, which ends the run.
    fn refused(&self) -> Option<Refused>;

    /// What is printed and not yet written.
    fn out(&mut self) -> &mut Vec<u8>;
}

fn read_all(mut run: impl Run, system: &mut impl System) -> Result<Option<Refused>, Failure> {
    let mut block = vec![0; BLOCK];
    while !run.is_over() {
        let length = match system.read(&mut block) {
            Ok(0) => break,
            Ok(length) => length,
            Err(error) if error.kind() == ErrorKind::Interrupted => continue,
            Err(error) => return Err(Failure::Read(error)),
        };
        for &character in &block[..length] {
            run.take(character);
            if run.is_over() {
                break;
            }
            if run.out().len() >= BLOCK {
                write(run.out(), system)?;
            }
        }
        // Before the next read, which may wait on a live pipe.
        write(run.out(), system)?;
    }
    run.finish();
    write(run.out(), system)?;
    Ok(run.refused())
}

fn write(out: &mut Vec<u8>, system: &mut impl System) -> Result<(), Failure> {
    write_all(out, system).map_err(Failure::Write)?;
    out.clear();
    Ok(())
}

/// What the system failed to do.
#[derive(Debug)]
pub enum Failure {
    Read(io::Error),
    Write(io::Error),
}

/// A run over hexadecimal lines.
struct Listing {
    program: Program,
    decoder: Decoder,
    /// In the decoder's place, where the bits are judged.
    judge: Judge,
    line: HexLine,
    lines_ended: u64,
    /// What is printed and not yet written.
    out: Vec<u8>,
    refused: Option<Refused>,
}

impl Listing {
    fn start(program: Program) -> Listing {
        Listing {
            program,
            decoder: Decoder::start(),
            judge: Judge::start(),
            line: HexLine::default(),
            lines_ended: 0,
            out: Vec::with_capacity(2 * BLOCK),
            refused: None,
        }
    }

    fn end_line(&mut self) {
        self.lines_ended += 1;
        let line = std::mem::take(&mut self.line);
        match line.bytes() {
            Ok(bytes) if self.program == Program::Accept => self.judge(bytes),
            Ok(bytes) => self.list(bytes),
            Err(why) => {
                push_refused(&mut self.out, why.number(), self.lines_ended);
                self.refuse_line(why);
            }
        }
    }

    fn refuse_line(&mut self, why: Why) {
        let line = self.lines_ended;
        self.refused = Some(Refused::Line(Refusal { line, why }));
    }

    /// Prints the records of a line.
    fn list(&mut self, bytes: &[u8]) {
        let (program, out) = (self.program, &mut self.out);
        let taken = self.decoder.feed(bytes, |record, frame| {
            push_record(out, record);
            if program == Program::Station {
                push_frame(out, frame);
            }
        });
        if !taken {
            // Nothing is printed for it.
            self.refuse_line(Why::Clock);
        }
    }

    /// Judges the bits of a line. One whose bits pass the last cycle is
    /// rejected as a decoder rejects it.
    fn judge(&mut self, bytes: &[u8]) {
        let bits = bytes.len() as u64 * 8;
        if bits > CLOCK_LIMIT - self.judge.taken() {
            return self.refuse_line(Why::Clock);
        }
        let judged = (0..bits).try_for_each(|place| self.judge.take(bit_at(bytes, place)));
        self.print_fault(judged);
    }

    fn print_fault(&mut self, judged: Result<(), Fault>) {
        if let Err(fault) = judged {
            push_fault(&mut self.out, fault.number(), fault.place);
            self.refused = Some(Refused::Pattern(fault));
        }
    }
}

impl Run for Listing {
    fn take(&mut self, character: u8) {
        if character == b'\n' {
            self.end_line();
        } else {
            self.line.push(character);
        }
    }

    fn finish(&mut self) {
        // Nothing after the last line feed is no line.
        if self.refused.is_none() && self.line.started() {
            self.end_line();
        }
        if self.program == Program::Accept && self.refused.is_none() {
            let judged = self.judge.finish();
            self.print_fault(judged);
        }
        if self.program == Program::Model {
            push_model(&mut self.out, &self.decoder.state, &self.decoder.store);
        }
    }

    /// A line, or a pattern at fault.
    fn refused(&self) -> Option<Refused> {
        self.refused
    }

    fn out(&mut self) -> &mut Vec<u8> {
        &mut self.out
    }
}
