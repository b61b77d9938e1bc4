//! The decoder's state and its opening ("One cycle, one bit").

use crate::limits::{CLOCK_LIMIT, FIFOS};
use crate::plan::Plan;
use crate::recogniser::Recogniser;
use crate::timing::Earlier;

/// All that is carried from one taking call to the next, but for the store
/// and the tray, which the caller keeps.
#[derive(Clone, Debug, PartialEq, Eq)]
pub struct State {
    /// The number that the next bit takes.
    pub next_cycle: u64,
    /// The cycle from which the bunch number counts.
    pub base_cycle: u64,
    pub run_mode: bool,
    pub recogniser: Recogniser,
    pub registers: [u16; 16],
    pub write_pointers: [u8; FIFOS],
    pub read_pointers: [u8; FIFOS],
    /// The trigger number, eight bits; wider here so that a caller can be
    /// told that it is not.
    pub l1id: u32,
    pub warnings: Warnings,
    /// The last record, also over GlobalResetMCC (document 02, F-5).
    pub earlier: Earlier,
    pub plan: Plan,
}

/// The warnings that CSR bits 8, 9 and 10 read as.
#[derive(Clone, Copy, Debug, Default, PartialEq, Eq)]
pub struct Warnings {
    /// An LV1 with flip.
    pub wlv1: bool,
    /// A bad Fast.
    pub wfst: bool,
    /// A bad Slow.
    pub wslw: bool,
}

/// CSR bits 8 to 10, which a write does not reach.
pub const WARNING_BITS: u16 = 0x0700;

impl Warnings {
    pub fn csr_bits(self) -> u16 {
        u16::from(self.wlv1) << 8 | u16::from(self.wfst) << 9 | u16::from(self.wslw) << 10
    }
}

impl State {
    /// The state after an accepted opening.
    pub fn start(plan: Plan, cycle: u64) -> State {
        State {
            next_cycle: cycle,
            base_cycle: cycle,
            run_mode: false,
            recogniser: Recogniser::IDLE,
            registers: [0; 16],
            write_pointers: [0; FIFOS],
            read_pointers: [0; FIFOS],
            l1id: 0,
            warnings: Warnings::default(),
            earlier: Earlier::NONE,
            plan,
        }
    }

    /// A register as stored; 0 beyond the sixteen addresses.
    pub fn stored(&self, address: u8) -> u16 {
        self.registers
            .get(usize::from(address))
            .copied()
            .unwrap_or(0)
    }

    /// A register as a read gives it: CSR with the warnings laid over.
    pub fn read(&self, address: u8) -> u16 {
        let stored = self.stored(address);
        if address == self.plan.csr {
            stored & !WARNING_BITS | self.warnings.csr_bits()
        } else {
            stored
        }
    }

    pub fn csr(&self) -> u16 {
        self.stored(self.plan.csr)
    }

    pub fn feen(&self) -> u16 {
        self.stored(self.plan.feen)
    }

    pub fn cnt(&self) -> u16 {
        self.stored(self.plan.cnt)
    }
}

/// Opens a decoder: the number of the refusal, if any, and the state. A
/// refused opening gives the default start state at cycle 0.
pub fn open(plan: Plan, cycle: u64) -> (Option<u8>, State) {
    let number = if !plan.opens() {
        Some(1)
    } else if cycle >= CLOCK_LIMIT {
        Some(2)
    } else {
        None
    };
    match number {
        Some(_) => (number, State::start(Plan::DEFAULT, 0)),
        None => (None, State::start(plan, cycle)),
    }
}
