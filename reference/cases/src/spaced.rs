//! Clean streams with bits to invert that are spaced (document 02, F-13):
//! between any two of them lies a whole command that none affects.

use crate::code;
use crate::{Random, Stream};

/// A command of a clean stream.
#[derive(Clone, Copy, Debug, PartialEq, Eq)]
pub enum Sent {
    Lv1,
    /// BCR, ECR, CAL or SYNC, by its body.
    Fast(u8),
}

pub const BCR: Sent = Sent::Fast(code::BCR);
pub const ECR: Sent = Sent::Fast(code::ECR);
pub const CAL: Sent = Sent::Fast(code::CAL);
pub const SYNC: Sent = Sent::Fast(code::SYNC);

/// Every command of a clean stream.
pub const ALL: [Sent; 5] = [Sent::Lv1, BCR, ECR, CAL, SYNC];

impl Sent {
    /// Its count of bits.
    pub fn bits(self) -> usize {
        match self {
            Sent::Lv1 => 5,
            Sent::Fast(_) => 9,
        }
    }

    /// A stream and then this command.
    pub fn add_to(self, stream: Stream) -> Stream {
        match self {
            Sent::Lv1 => stream.lv1(),
            Sent::Fast(body) => stream.fast(body),
        }
    }

    /// The zeros that the timing table asks between it and the next.
    pub fn zeros_ahead_of(self, next: Sent) -> usize {
        match (self, next) {
            (SYNC, Sent::Lv1) => 4,
            (_, Sent::Lv1) => 0,
            (BCR, _) => 2,
            (ECR, _) => 1,
            _ => 0,
        }
    }
}

/// Which bit of an item, a command with the zeros ahead of it, is inverted.
#[derive(Clone, Copy, Debug, PartialEq, Eq)]
pub enum Inverted {
    Nowhere,
    /// The zero so many cycles ahead of the command.
    Ahead(usize),
    /// A bit of the command, from 1 on.
    Bit(usize),
}

impl Inverted {
    /// Whether it affects the command ("The damage table").
    pub fn affects(self, command: Sent) -> bool {
        match self {
            Inverted::Nowhere => false,
            Inverted::Ahead(cycles) => command != Sent::Lv1 && cycles <= 2,
            Inverted::Bit(_) => true,
        }
    }
}

/// A clean stream and bits of it to invert, put together item by item.
#[derive(Clone, Debug, Default)]
pub struct Spaced {
    pub clean: Stream,
    /// The places of the bits to invert, in order.
    pub inverted: Vec<usize>,
    /// The places of the last bits of the commands that none affects.
    pub unaffected: Vec<usize>,
    last: Option<Sent>,
    last_is_affected: bool,
}

impl Spaced {
    pub fn new() -> Spaced {
        Spaced::default()
    }

    /// Adds a command with so many zeros ahead of it, the timing table's at
    /// least, and one of their bits to invert, where one may be.
    pub fn item(mut self, zeros: usize, command: Sent, inverted: Inverted) -> Spaced {
        assert!(zeros >= self.zeros_asked(command));
        self.clean = self.clean.zeros(zeros);
        let first = self.clean.bits.len();
        self.clean = command.add_to(self.clean);
        match inverted {
            Inverted::Nowhere => {}
            Inverted::Ahead(cycles) => {
                assert!((1..=zeros).contains(&cycles));
                self.invert(first - cycles);
            }
            Inverted::Bit(bit) => {
                assert!((1..=command.bits()).contains(&bit));
                self.invert(first + bit - 1);
            }
        }
        self.last = Some(command);
        self.last_is_affected = inverted.affects(command);
        if !self.last_is_affected {
            self.unaffected.push(self.clean.bits.len() - 1);
        }
        self
    }

    /// Adds zeros after the last command, and one of them to invert, counted
    /// from 0, where one may be.
    pub fn end(mut self, zeros: usize, inverted: Option<usize>) -> Spaced {
        let first = self.clean.bits.len();
        self.clean = self.clean.zeros(zeros);
        if let Some(zero) = inverted {
            assert!(zero < zeros);
            self.invert(first + zero);
        }
        self
    }

    /// What the timing table asks ahead of the next command.
    pub fn zeros_asked(&self, next: Sent) -> usize {
        self.last.map_or(0, |last| last.zeros_ahead_of(next))
    }

    /// Whether the next item may have an inverted bit: not after one whose
    /// command is affected.
    pub fn may_invert(&self) -> bool {
        !self.last_is_affected
    }

    fn invert(&mut self, place: usize) {
        assert!(self.may_invert());
        self.inverted.push(place);
    }

    /// The stream with those bits inverted.
    pub fn damaged(&self) -> Stream {
        let mut stream = self.clean.clone();
        for &place in &self.inverted {
            stream.bits[place] = !stream.bits[place];
        }
        stream
    }
}

/// So many commands, where one item in `n` has a bit to invert, if it may.
pub fn spaced_hits(random: &mut Random, count: usize, n: u64) -> Spaced {
    let mut spaced = Spaced::new();
    for _ in 0..count {
        let command = any_command(random);
        let zeros = spaced.zeros_asked(command) + more_zeros(random);
        let inverted = if spaced.may_invert() && random.one_in(n) {
            any_bit(random, zeros, command)
        } else {
            Inverted::Nowhere
        };
        spaced = spaced.item(zeros, command, inverted);
    }
    let zeros = random.below(9) as usize;
    let zero = random.below(9) as usize;
    let inverted = (spaced.may_invert() && zero < zeros).then_some(zero);
    spaced.end(zeros, inverted)
}

/// Triggers twice as often as each other, to show the counters.
fn any_command(random: &mut Random) -> Sent {
    [Sent::Lv1, Sent::Lv1, BCR, ECR, CAL, SYNC][random.below(6) as usize]
}

/// Often none; now and then so many that the bunch number starts anew.
fn more_zeros(random: &mut Random) -> usize {
    match random.below(16) {
        0..=6 => 0,
        7..=12 => random.below(6) as usize,
        13 | 14 => random.below(40) as usize,
        _ => random.below(300) as usize,
    }
}

/// A bit of the command most often, and of the zeros one just ahead.
fn any_bit(random: &mut Random, zeros: usize, command: Sent) -> Inverted {
    let ahead = match random.below(8) {
        0 | 1 => 1 + random.below(2) as usize,
        2 => 1 + random.below(zeros as u64 + 1) as usize,
        _ => usize::MAX,
    };
    if ahead <= zeros {
        Inverted::Ahead(ahead)
    } else {
        Inverted::Bit(1 + random.below(command.bits() as u64) as usize)
    }
}
