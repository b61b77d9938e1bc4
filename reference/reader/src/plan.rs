//! The register plan ("The register plan").

/// Which register addresses exist and which three the decoder looks into:
/// document 01's "plan".
#[derive(Clone, Copy, Debug, PartialEq, Eq)]
pub struct Plan {
    /// Bit n is 1 when address n exists.
    pub mask: u16,
    pub csr: u8,
    pub feen: u8,
    pub cnt: u8,
}

impl Plan {
    /// Registers 0 to 10, by document 02, F-9; document 01 had mask 007F,
    /// registers 0 to 6, and the same three addresses.
    pub const DEFAULT: Plan = Plan {
        mask: 0x07FF,
        csr: 0,
        feen: 2,
        cnt: 5,
    };

    /// Whether a register of that address exists; none exists from 16 on.
    pub fn has(&self, address: u8) -> bool {
        address < 16 && self.mask >> address & 1 == 1
    }

    /// The opposite of number 1's condition.
    pub fn opens(&self) -> bool {
        self.has(self.csr)
            && self.has(self.feen)
            && self.has(self.cnt)
            && self.csr != self.feen
            && self.csr != self.cnt
            && self.feen != self.cnt
    }
}
