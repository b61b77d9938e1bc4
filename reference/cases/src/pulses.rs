//! Streams as a maker's pulse program sends them (document 02, F-8): trigger
//! and fast commands that keep the timing table, often just so; and the same
//! with a flaw.

use crate::spaced::{Sent, ALL};
use crate::{code, Random, Stream};

/// A stream that keeps the timing table, put together command by command.
#[derive(Clone, Debug, Default)]
pub struct Pulses {
    pub stream: Stream,
    /// Each command with the place of its first bit.
    pub sent: Vec<(Sent, usize)>,
}

impl Pulses {
    pub fn new() -> Pulses {
        Pulses::default()
    }

    /// What the timing table asks ahead of the next command.
    pub fn zeros_asked(&self, next: Sent) -> usize {
        let last = self.sent.last();
        last.map_or(0, |(last, _)| last.zeros_ahead_of(next))
    }

    /// Adds a command, with so many zeros ahead of it more than are asked.
    pub fn send(mut self, more: usize, command: Sent) -> Pulses {
        let zeros = self.zeros_asked(command) + more;
        self.stream = self.stream.zeros(zeros);
        self.sent.push((command, self.stream.bits.len()));
        self.stream = command.add_to(self.stream);
        self
    }

    /// Adds zeros after the last command.
    pub fn zeros(mut self, count: usize) -> Pulses {
        self.stream = self.stream.zeros(count);
        self
    }

    /// The places of the zeros just ahead of commands that have no more than
    /// the timing table asks.
    pub fn needed_zeros(&self) -> Vec<usize> {
        let pairs = self.sent.windows(2);
        pairs
            .filter_map(|pair| {
                let [(before, from), (command, first)] = [pair[0], pair[1]];
                let asked = before.zeros_ahead_of(command);
                let zeros = first - (from + before.bits());
                (asked > 0 && zeros == asked).then(|| first - 1)
            })
            .collect()
    }
}

/// So many commands; often with just the zeros that are asked.
pub fn pulses(random: &mut Random, count: usize) -> Pulses {
    let mut pulses = Pulses::new();
    for _ in 0..count {
        let command = ALL[random.below(ALL.len() as u64) as usize];
        pulses = pulses.send(more_zeros(random), command);
    }
    let after = more_zeros(random);
    pulses.zeros(after)
}

fn more_zeros(random: &mut Random) -> usize {
    match random.below(8) {
        0..=4 => 0,
        5 | 6 => random.below(6) as usize,
        _ => random.below(40) as usize,
    }
}

/// What is wrong with a stream.
#[derive(Clone, Copy, Debug, PartialEq, Eq)]
pub enum Flaw {
    Nothing,
    /// A bit is inverted.
    Inverted,
    /// A zero is missing where it is needed.
    ZeroMissing,
    /// It ends too early.
    Cut,
    /// A Slow header stands between two commands, or inside one.
    Slow,
    /// An LV1 with one bit hit stands there.
    FlippedLv1,
    /// A command stands there that may be too close, or inside another.
    Extra,
}

impl Flaw {
    pub const ALL: [Flaw; 7] = [
        Flaw::Nothing,
        Flaw::Inverted,
        Flaw::ZeroMissing,
        Flaw::Cut,
        Flaw::Slow,
        Flaw::FlippedLv1,
        Flaw::Extra,
    ];

    /// The stream with this flaw somewhere. A flaw need not be a fault: the
    /// end may come between commands, and one command more may have its zeros.
    pub fn put_into(self, pulses: &Pulses, random: &mut Random) -> Stream {
        let mut stream = pulses.stream.clone();
        if stream.bits.is_empty() {
            return stream;
        }
        let place = random.below(stream.bits.len() as u64) as usize;
        match self {
            Flaw::Nothing => stream,
            Flaw::Inverted => {
                stream.bits[place] = !stream.bits[place];
                stream
            }
            Flaw::ZeroMissing => {
                let needed = pulses.needed_zeros();
                if !needed.is_empty() {
                    let one = random.below(needed.len() as u64) as usize;
                    stream.bits.remove(needed[one]);
                }
                stream
            }
            Flaw::Cut => {
                stream.bits.truncate(place);
                stream
            }
            Flaw::Slow => insert(&stream, pulses, random, &Stream::new().fast(code::SLOW)),
            Flaw::FlippedLv1 => {
                let hit = code::FLIPPED_LV1[random.below(5) as usize];
                insert(&stream, pulses, random, &Stream::new().pattern(hit))
            }
            Flaw::Extra => {
                let command = ALL[random.below(ALL.len() as u64) as usize];
                insert(&stream, pulses, random, &command.add_to(Stream::new()))
            }
        }
    }
}

/// Puts bits into a stream: ahead of one of its commands most often, or
/// anywhere.
fn insert(stream: &Stream, pulses: &Pulses, random: &mut Random, bits: &Stream) -> Stream {
    let commands = pulses.sent.len() as u64;
    let place = match commands {
        0 => 0,
        _ if random.one_in(4) => random.below(stream.bits.len() as u64) as usize,
        _ => pulses.sent[random.below(commands) as usize].1,
    };
    let (ahead, after) = stream.bits.split_at(place);
    Stream::new().raw(ahead).raw(&bits.bits).raw(after)
}

/// The stream with zeros ahead of it, so that it ends with a byte and nothing
/// need be added after it.
pub fn ending_with_a_byte(stream: &Stream) -> Stream {
    let ahead = stream.bits.len().wrapping_neg() % 8;
    Stream::new().zeros(ahead).raw(&stream.bits)
}
