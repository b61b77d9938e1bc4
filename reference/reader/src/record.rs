//! Records ("A record").

use crate::limits::{FIFO_WORDS, FIFO_WORD_BITS, FIFO_WORD_MASK};
use crate::recogniser::Command;
use crate::slow;
use crate::state::State;

/// One command or error recognised: document 01's "record".
#[derive(Clone, Copy, Debug, PartialEq, Eq)]
pub struct Record {
    /// The cycle of the command's last bit.
    pub time: u64,
    pub kind: u8,
    pub flags: u8,
    pub value: u32,
}

pub mod kind {
    pub const LV1: u8 = 0x01;
    /// Added to the body of a Fast.
    pub const FAST: u8 = 0x10;
    pub const BAD_FAST: u8 = 0x1F;
    /// Added to Field 3 of a Slow.
    pub const SLOW: u8 = 0x20;
    pub const BAD_SLOW: u8 = 0x2F;
}

pub mod flag {
    pub const ACTED_ON: u8 = 0x01;
    pub const FLIP: u8 = 0x02;
    pub const SENT: u8 = 0x04;
    pub const MISSING: u8 = 0x08;
    pub const UNSTEADY: u8 = 0x10;
    /// Fewer zeros than the timing table asks lie between this command and
    /// the recorded one before it (document 02, F-5).
    pub const TOO_CLOSE: u8 = 0x20;
}

/// CSR bit 6, event playback: no LV1 goes to the front ends.
const PLAYBACK: u16 = 1 << 6;

impl Record {
    /// The two 64-bit numbers of a record.
    pub fn words(&self) -> [u64; 2] {
        [
            self.time << 16 | u64::from(self.kind) << 8 | u64::from(self.flags),
            u64::from(self.value),
        ]
    }

    pub fn from_words(words: [u64; 2]) -> Record {
        Record {
            time: words[0] >> 16,
            kind: (words[0] >> 8) as u8,
            flags: words[0] as u8,
            value: words[1] as u32,
        }
    }

    /// The count of bits of the frame that ends with this record, if one does.
    pub fn frame_bits(&self) -> Option<u64> {
        match self.kind {
            0x24 | 0x25 => Some(u64::from(self.value >> 16) + u64::from(self.value & 0xFFFF)),
            0x26 => Some(u64::from(self.value)),
            _ => None,
        }
    }
}

/// The record of a command whose last bit came at `time`, by the state and
/// the store as they are ahead of its effects.
pub fn record_of(command: Command, time: u64, state: &State, store: &[u32]) -> Record {
    let (kind, flags, value) = match command {
        Command::Lv1 { position } => (
            kind::LV1,
            lv1_flags(position, state),
            lv1_value(position, time, state),
        ),
        Command::Fast { body } => (kind::FAST + body, acted_on(state.run_mode), 0),
        Command::BadFast { body } => (kind::BAD_FAST, 0, u32::from(body)),
        Command::Slow {
            field3,
            field4,
            field5,
            unsteady,
        } => (
            kind::SLOW + field3,
            slow_flags(field3, field4, unsteady, state),
            slow_value(field3, field4, field5, state, store),
        ),
        Command::BadSlow { field3 } => (kind::BAD_SLOW, 0, u32::from(field3)),
    };
    Record {
        time,
        kind,
        flags: flags | too_close(kind, time, state),
        value,
    }
}

fn too_close(kind: u8, time: u64, state: &State) -> u8 {
    if state.earlier.is_too_close(kind, time, state.cnt()) {
        flag::TOO_CLOSE
    } else {
        0
    }
}

fn acted_on(yes: bool) -> u8 {
    if yes {
        flag::ACTED_ON
    } else {
        0
    }
}

fn lv1_flags(position: u8, state: &State) -> u8 {
    let mut flags = acted_on(state.run_mode);
    if position != 0 {
        flags |= flag::FLIP;
    }
    if state.run_mode && state.csr() & PLAYBACK == 0 {
        flags |= flag::SENT;
    }
    flags
}

/// The position is told in and out of RunMode (document 02, F-1), the
/// counters only when the LV1 is acted on.
fn lv1_value(position: u8, time: u64, state: &State) -> u32 {
    let position = u32::from(position) << 16;
    if !state.run_mode {
        return position;
    }
    let bunch = time.wrapping_sub(state.base_cycle) as u8;
    position | state.l1id << 8 | u32::from(bunch)
}

fn slow_flags(field3: u8, field4: u8, unsteady: bool, state: &State) -> u8 {
    match field3 {
        slow::WR_REGISTER | slow::RD_REGISTER if !state.plan.has(field4) => flag::MISSING,
        slow::WR_FRONT_END | slow::RD_FRONT_END if unsteady => flag::ACTED_ON | flag::UNSTEADY,
        _ => flag::ACTED_ON,
    }
}

fn slow_value(field3: u8, field4: u8, field5: u32, state: &State, store: &[u32]) -> u32 {
    let address = u32::from(field4);
    match field3 {
        // The sixteen bits that arrived, also where CSR does not keep them.
        slow::WR_REGISTER => address << 16 | field5,
        slow::RD_REGISTER => address << 16 | u32::from(state.read(field4)),
        slow::WR_FIFO => field5,
        slow::RD_FIFO => {
            let fifo = usize::from(field4);
            let place = fifo * FIFO_WORDS + usize::from(state.read_pointers[fifo]);
            address << FIFO_WORD_BITS | store[place] & FIFO_WORD_MASK
        }
        slow::WR_FRONT_END | slow::RD_FRONT_END => {
            slow::control_bits(state.cnt()) << 16 | slow::data_bits(state.cnt())
        }
        slow::WR_RECEIVER => slow::receiver_bits(state.cnt()),
        // The width of SYNC, from SyncW.
        slow::GLOBAL_RESET_FE => field5 * 2 + 1,
        _ => 0,
    }
}
