//! The check of a finished stream of trigger and fast commands (document 02,
//! F-8): accepted are zeros and whole, exact LV1, BCR, ECR, CAL and SYNC
//! commands that keep the timing table.

use crate::hunting::bit_at;
use crate::recogniser::{BCR, CAL, ECR, SYNC};
use crate::record::kind;
use crate::take::input_and_range_fit;
use crate::timing::zeros_asked;
use std::fmt;

/// A refusal, with the first bit of the first pattern at fault.
#[derive(Clone, Copy, Debug, PartialEq, Eq)]
pub struct Fault {
    pub why: WhyNot,
    /// Counted from 0 at the range's first bit.
    pub place: u64,
}

#[derive(Clone, Copy, Debug, PartialEq, Eq)]
pub enum WhyNot {
    /// The input is too long, or the range passes its end.
    Range,
    /// The bits present begin none of the five commands.
    Unknown,
    /// The stream ends inside a command.
    Cut,
    /// Too few zeros lie ahead of a whole command.
    TooClose,
}

impl Fault {
    /// The number of the refusal.
    pub fn number(self) -> u8 {
        match self.why {
            WhyNot::Range => 5,
            WhyNot::Unknown => 13,
            WhyNot::Cut => 14,
            WhyNot::TooClose => 15,
        }
    }
}

impl fmt::Display for Fault {
    fn fmt(&self, f: &mut fmt::Formatter) -> fmt::Result {
        let why = match self.why {
            WhyNot::Range => "the input is too long, or the range passes its end",
            WhyNot::Unknown => "the bits from here on begin none of LV1, BCR, ECR, CAL and SYNC",
            WhyNot::Cut => "the input ends inside the command that begins here",
            WhyNot::TooClose => "too few zeros lie ahead of the command that begins here",
        };
        write!(f, "bit {}: {why}", self.place)
    }
}

/// Judges `count` bits of `input` from bit `first_bit` on.
pub fn accept(input: &[u8], first_bit: u64, count: u64) -> Result<(), Fault> {
    if !input_and_range_fit(input, first_bit, count) {
        let (why, place) = (WhyNot::Range, 0);
        return Err(Fault { why, place });
    }
    let mut judge = Judge::start();
    for place in first_bit..first_bit + count {
        judge.take(bit_at(input, place))?;
    }
    judge.finish()
}

/// One of the five commands, by the kind of its record: its bits as a number,
/// the first received highest, and their count.
struct Command {
    kind: u8,
    bits: u16,
    length: u32,
}

const COMMANDS: [Command; 5] = [
    Command {
        kind: kind::LV1,
        bits: 0b11101,
        length: 5,
    },
    fast(BCR),
    fast(ECR),
    fast(CAL),
    fast(SYNC),
];

const fn fast(body: u8) -> Command {
    Command {
        kind: kind::FAST + body,
        bits: 0b10110 << 4 | body as u16,
        length: 9,
    }
}

/// The bits present of a pattern, which begins with a 1.
#[derive(Clone, Copy, Debug, PartialEq, Eq)]
struct Pattern {
    /// The place of its first bit.
    place: u64,
    bits: u16,
    length: u32,
}

impl Pattern {
    /// Whether its bits are the first ones of a command, or all of them.
    fn begins(self, command: &Command) -> bool {
        self.length <= command.length && command.bits >> (command.length - self.length) == self.bits
    }

    fn is_whole(self, command: &Command) -> bool {
        self.length == command.length && self.begins(command)
    }
}

/// The command before: its kind, and the place next to its last bit.
#[derive(Clone, Copy, Debug, PartialEq, Eq)]
struct Before {
    kind: u8,
    next: u64,
}

/// Judges a stream bit by bit. It keeps no bit but those of the pattern under
/// way, of which there are fewer than nine.
#[derive(Clone, Debug, PartialEq, Eq)]
pub struct Judge {
    taken: u64,
    before: Option<Before>,
    /// The pattern that has begun and is not whole.
    begun: Option<Pattern>,
}

impl Judge {
    pub fn start() -> Judge {
        Judge {
            taken: 0,
            before: None,
            begun: None,
        }
    }

    /// The bits taken so far.
    pub fn taken(&self) -> u64 {
        self.taken
    }

    /// Takes the next bit. A fault ends the stream's judgement.
    pub fn take(&mut self, bit: bool) -> Result<(), Fault> {
        let place = self.taken;
        self.taken += 1;
        let pattern = match self.begun {
            // A zero ahead of a pattern.
            None if !bit => return Ok(()),
            None => Pattern {
                place,
                bits: 1,
                length: 1,
            },
            Some(begun) => Pattern {
                bits: begun.bits << 1 | u16::from(bit),
                length: begun.length + 1,
                ..begun
            },
        };
        let fault = |why| Fault {
            why,
            place: pattern.place,
        };
        if !COMMANDS.iter().any(|command| pattern.begins(command)) {
            return Err(fault(WhyNot::Unknown));
        }
        let whole = COMMANDS.iter().find(|command| pattern.is_whole(command));
        let Some(command) = whole else {
            self.begun = Some(pattern);
            return Ok(());
        };
        if let Some(before) = self.before {
            let zeros = pattern.place - before.next;
            if zeros < zeros_asked(before.kind, command.kind) {
                return Err(fault(WhyNot::TooClose));
            }
        }
        self.begun = None;
        self.before = Some(Before {
            kind: command.kind,
            next: self.taken,
        });
        Ok(())
    }

    /// The end of the stream.
    pub fn finish(&self) -> Result<(), Fault> {
        match self.begun {
            None => Ok(()),
            Some(begun) => Err(Fault {
                why: WhyNot::Cut,
                place: begun.place,
            }),
        }
    }
}
