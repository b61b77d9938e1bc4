//! Clean streams and the damage table, from document 01.
//!
//! How the affected command is decided: let the inverted bit have place p in
//! the stream, and let a command that starts at place s have n bits. If there
//! is a command with s <= p < s + n, it is that one, and its bit number is
//! p - s + 1. Otherwise the bit is a zero that no command holds; if there is
//! a Fast with s = p + 1 or s = p + 2, it is that one ("zero ahead"). For
//! p + 2 = s the zero between them is held by no command either, as no
//! command is that short. Otherwise none is affected.

use super::{earlier, flagged, rec};
use reader::{Earlier, Record, State};
use std::ops::RangeInclusive;

#[derive(Clone, Copy, Debug, PartialEq, Eq)]
pub enum Command {
    Lv1,
    Bcr,
    Ecr,
    Cal,
    Sync,
}
use Command::*;

pub const ALL: [Command; 5] = [Lv1, Bcr, Ecr, Cal, Sync];
const FASTS: &[Command] = &[Bcr, Ecr, Cal, Sync];

impl Command {
    pub fn pattern(self) -> (u128, usize) {
        match self {
            Lv1 => (0b11101, 5),
            Bcr => (0b1_0110_0001, 9),
            Ecr => (0b1_0110_0010, 9),
            Cal => (0b1_0110_0100, 9),
            Sync => (0b1_0110_1000, 9),
        }
    }

    /// Its count of bits.
    pub fn bits(self) -> usize {
        self.pattern().1
    }

    pub fn kind(self) -> u8 {
        match self {
            Lv1 => 0x01,
            Bcr => 0x11,
            Ecr => 0x12,
            Cal => 0x14,
            Sync => 0x18,
        }
    }

    /// The command that a record of this kind is of.
    pub fn of_kind(kind: u8) -> Option<Command> {
        ALL.into_iter().find(|command| command.kind() == kind)
    }
}

/// The timing table: the zeros asked between two commands.
pub fn zeros_between(first: Command, second: Command) -> usize {
    match (first, second) {
        (Sync, Lv1) => 4,
        (_, Lv1) => 0,
        (Bcr, _) => 2,
        (Ecr, _) => 1,
        _ => 0,
    }
}

/// What is recorded instead of the command, and at which of its bits.
#[derive(Clone, Copy, Debug)]
pub enum Replacement {
    Nothing,
    /// With the position that an LV1 with flip tells (document 02, F-1).
    Flip(usize, u32),
    Exact(usize),
    BadFast(usize),
}
use Replacement::*;

/// The damage table: the command hit, which of its bits, and the replacement.
pub const DAMAGE: [(&[Command], RangeInclusive<usize>, Replacement); 15] = [
    (&[Lv1], 1..=1, Flip(5, 1)),
    (&[Lv1], 2..=2, Flip(5, 2)),
    (&[Lv1], 3..=3, Flip(5, 3)),
    (&[Lv1], 4..=4, Flip(5, 4)),
    (&[Lv1], 5..=5, Flip(5, 5)),
    (FASTS, 6..=9, BadFast(9)),
    (&[Cal], 1..=1, Flip(7, 3)),
    (&[Sync], 1..=1, Flip(6, 1)),
    (&[Bcr, Ecr], 1..=1, Nothing),
    (&[Bcr, Ecr, Cal], 2..=2, Flip(6, 5)),
    (&[Sync], 2..=2, Exact(6)),
    (FASTS, 3..=4, Nothing),
    (&[Bcr, Ecr], 5..=5, Flip(7, 5)),
    (&[Cal], 5..=5, Exact(7)),
    (&[Sync], 5..=5, Flip(8, 5)),
];

/// The table's last row: the cycles by which the zero is ahead of a Fast. It
/// has one row but two positions.
pub const ZEROS_AHEAD: [(usize, Replacement); 2] = [(1, Flip(3, 1)), (2, Flip(3, 2))];

pub fn damage(command: Command, bit: usize) -> Replacement {
    let mut rows = DAMAGE
        .iter()
        .filter(|(commands, bits, _)| commands.contains(&command) && bits.contains(&bit));
    let (_, _, replacement) = rows.next().expect("a row for every bit");
    assert!(rows.next().is_none(), "one row only");
    *replacement
}

/// An inverted bit that affects a command.
#[derive(Clone, Copy, Debug)]
pub struct Hit {
    pub inverted: usize,
    /// The affected command's place in the list.
    pub place: usize,
    pub replacement: Replacement,
}

/// A clean stream: its commands, each with its first place, its length in
/// bits, and the bits.
pub struct Clean {
    pub commands: Vec<(Command, usize)>,
    /// Whether it is clean indeed: the timing table's zeros are there.
    pub keeps_table: bool,
    pub length: usize,
    pub bytes: Vec<u8>,
}

impl Clean {
    /// `zeros` lie ahead of each command and, the last of them, at the end.
    pub fn new(commands: &[Command], zeros: &[usize]) -> Clean {
        let mut placed = Vec::new();
        let mut place = 0;
        for (&command, &ahead) in commands.iter().zip(zeros) {
            place += ahead;
            placed.push((command, place));
            place += command.bits();
        }
        let length = place + zeros[commands.len()];
        let mut bytes = vec![0; length.div_ceil(8)];
        for &(command, start) in &placed {
            let (pattern, bits) = command.pattern();
            for bit in 0..bits {
                if pattern >> (bits - 1 - bit) & 1 == 1 {
                    invert(&mut bytes, start + bit);
                }
            }
        }
        let mut pairs = commands.windows(2).zip(&zeros[1..]);
        Clean {
            commands: placed,
            keeps_table: pairs.all(|(pair, &gap)| gap >= zeros_between(pair[0], pair[1])),
            length,
            bytes,
        }
    }

    /// What an inverted bit affects, if anything.
    pub fn affected(&self, inverted: usize) -> Option<Hit> {
        let hit = |place, replacement| Hit {
            inverted,
            place,
            replacement,
        };
        for (place, &(command, start)) in self.commands.iter().enumerate() {
            if (start..start + command.bits()).contains(&inverted) {
                return Some(hit(place, damage(command, inverted - start + 1)));
            }
        }
        for (cycles, replacement) in ZEROS_AHEAD {
            let ahead = |&(command, start)| command != Lv1 && inverted + cycles == start;
            if let Some(place) = self.commands.iter().position(ahead) {
                return Some(hit(place, replacement));
            }
        }
        None
    }

    /// The place behind each item: behind each command, and the stream's end.
    pub fn ends(&self) -> impl Iterator<Item = usize> + '_ {
        let commands = self.commands.iter();
        let ends = commands.map(|&(command, first)| first + command.bits());
        ends.chain([self.length])
    }

    /// The cycle of a command's last bit, where the stream's first has cycle
    /// `start`.
    pub fn last_cycle(&self, place: usize, start: u64) -> u64 {
        let (command, first) = self.commands[place];
        start + (first + command.bits() - 1) as u64
    }

    /// The record of the affected command, if it has one, by the counters
    /// ahead of it.
    pub fn instead(&self, hit: &Hit, start: u64, ahead: &Counters) -> Option<Record> {
        let (command, first) = self.commands[hit.place];
        let at = |bit: usize| start + (first + bit - 1) as u64;
        match hit.replacement {
            Nothing => None,
            Flip(bit, position) => Some(ahead.lv1(at(bit), position)),
            Exact(bit) => Some(ahead.lv1(at(bit), 0)),
            BadFast(bit) => {
                let (pattern, bits) = command.pattern();
                let body = pattern ^ 1 << (bits - 1 - (hit.inverted - first));
                Some(ahead.flagged(rec(at(bit), 0x1F, 0, body as u32 & 15)))
            }
        }
    }
}

pub fn invert(bytes: &mut [u8], place: usize) {
    bytes[place / 8] ^= 0x80 >> (place % 8);
}

/// The two counters and the earlier record, as the tests keep them, and what
/// else a record goes by.
#[derive(Clone, Copy, Debug, PartialEq, Eq)]
pub struct Counters {
    pub l1id: u32,
    pub base: u64,
    pub earlier: Earlier,
    pub run_mode: bool,
    /// CSR bit 6 is 0.
    pub sends: bool,
}

impl Counters {
    pub fn of(state: &State) -> Counters {
        Counters {
            l1id: state.l1id,
            base: state.base_cycle,
            earlier: state.earlier,
            run_mode: state.run_mode,
            sends: state.csr() & 0x0040 == 0,
        }
    }

    /// Position 0 stands for an exact LV1.
    pub fn lv1(&self, time: u64, position: u32) -> Record {
        let flip = if position != 0 { 0x02 } else { 0 };
        let hit = position * 65_536;
        if !self.run_mode {
            return self.flagged(rec(time, 0x01, flip, hit));
        }
        let sent = if self.sends { 0x04 } else { 0 };
        let bunch = ((time - self.base) % 256) as u32;
        let value = hit + self.l1id * 256 + bunch;
        self.flagged(rec(time, 0x01, 0x01 | sent | flip, value))
    }

    pub fn record(&self, command: Command, time: u64) -> Record {
        match command {
            Lv1 => self.lv1(time, 0),
            fast => self.flagged(rec(time, fast.kind(), u8::from(self.run_mode), 0)),
        }
    }

    /// With flag 20, if it is too close to the record before.
    pub fn flagged(&self, record: Record) -> Record {
        flagged(self.earlier, record)
    }

    /// What a record does to the counters.
    pub fn count(&mut self, record: &Record) {
        self.earlier = earlier(record.time, record.kind);
        match record.kind {
            0x01 if self.run_mode => self.l1id = (self.l1id + 1) % 256,
            0x11 if self.run_mode => self.base = record.time,
            0x12 if self.run_mode => self.l1id = 0,
            _ => {}
        }
    }
}

/// Whether the records of an unaffected command agree, but for the counters
/// that may differ. An LV1's position is none of them: value / 65,536 always
/// agrees (document 02, F-1). Nor is flag 20, also in the record after an
/// affected one (F-5).
pub fn agree(damaged: &Record, clean: &Record, l1id_free: bool, bunch_free: bool) -> bool {
    let may_differ = if clean.kind == 0x01 {
        (u32::from(l1id_free) * 0xFF00) | (u32::from(bunch_free) * 0x00FF)
    } else {
        0
    };
    (damaged.time, damaged.kind, damaged.flags) == (clean.time, clean.kind, clean.flags)
        && damaged.value / 65_536 == clean.value / 65_536
        && (damaged.value ^ clean.value) & !may_differ == 0
}

/// Every series of `count` commands with the gaps `more` than the timing
/// table asks, these zeros ahead and these after.
pub fn every_series(
    count: usize,
    more: RangeInclusive<usize>,
    ahead: RangeInclusive<usize>,
    after: &[usize],
    mut each: impl FnMut(&Clean),
) {
    let gaps = more.clone().count();
    for series in 0..ALL.len().pow(count as u32) {
        let commands: Vec<Command> = (0..count)
            .map(|place| ALL[series / ALL.len().pow(place as u32) % ALL.len()])
            .collect();
        for choice in 0..gaps.pow(count as u32 - 1) {
            for leading in ahead.clone() {
                for &trailing in after {
                    let mut zeros = vec![leading];
                    for place in 1..count {
                        let least = zeros_between(commands[place - 1], commands[place]);
                        let extra = choice / gaps.pow(place as u32 - 1) % gaps;
                        zeros.push(least + more.start() + extra);
                    }
                    zeros.push(trailing);
                    each(&Clean::new(&commands, &zeros));
                }
            }
        }
    }
}
