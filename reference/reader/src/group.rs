//! How eight cycles become one front-end bit: the vote of document 02, F-4,
//! in place of document 01's first of eight.

use crate::slow::GROUP_CYCLES;

/// What is held of the groups of a front-end frame.
#[derive(Clone, Copy, Debug, Default, PartialEq, Eq)]
pub struct Group {
    /// The bits received of the present group, the latest lowest. Cleared at
    /// each group's end, so that nothing of a finished group is held.
    pub bits: u8,
    /// Whether a finished group of this frame had bits that differ.
    pub unsteady: bool,
}

impl Group {
    /// Takes the bit of a group's cycle `place`, 0 to 7. In the last one it
    /// answers the frame bit to be stored in this cycle.
    pub fn take(&mut self, place: u32, bit: bool) -> Option<bool> {
        self.bits = self.bits << 1 | u8::from(bit);
        if place + 1 < GROUP_CYCLES {
            return None;
        }
        let whole = std::mem::take(&mut self.bits);
        self.unsteady |= !matches!(whole, 0 | u8::MAX);
        Some(vote(whole))
    }

    /// Whether some bits, as many as the present group's cycles received of a
    /// frame's `received`, would leave what is held.
    pub fn fits(self, received: u32) -> bool {
        self.bits >> (received % GROUP_CYCLES) == 0
    }
}

/// The bit of a whole group: what most of its cycles have, and with four of
/// each what the first has.
fn vote(group: u8) -> bool {
    match group.count_ones() {
        0..=3 => false,
        4 => group >> 7 == 1,
        _ => true,
    }
}
