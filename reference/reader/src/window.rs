//! What the five-bit window means ("Hunting").

/// The window of an exact LV1, and that of a header.
pub const LV1: u8 = 0b11101;
pub const HEADER: u8 = 0b10110;

/// Bits of the window.
pub const WINDOW_BITS: u32 = 5;

/// What is recognised when the window, after a new bit, has some contents.
#[derive(Clone, Copy, Debug, PartialEq, Eq)]
pub enum Meaning {
    Nothing,
    /// The position of the bit that was hit: 1 for the first received to 5,
    /// and 0 if the LV1 is exact (document 02, F-1).
    Lv1 {
        position: u8,
    },
    Header,
}

/// The one rule on windows. The windows are five bits wide; any number above
/// means nothing.
#[inline]
pub fn meaning(window: u8) -> Meaning {
    if window == HEADER {
        return Meaning::Header;
    }
    match position(window) {
        Some(position) => Meaning::Lv1 { position },
        None => Meaning::Nothing,
    }
}

/// An LV1's bits differ from the exact one's nowhere, or at one position. New
/// bits come at the low end, so that the first received is the highest.
#[inline]
fn position(window: u8) -> Option<u8> {
    match window ^ LV1 {
        0b00000 => Some(0),
        0b10000 => Some(1),
        0b01000 => Some(2),
        0b00100 => Some(3),
        0b00010 => Some(4),
        0b00001 => Some(5),
        _ => None,
    }
}

/// Takes a new bit at the window's low end and drops its oldest.
#[inline]
pub fn slide(window: u8, bit: bool) -> u8 {
    (window << 1 | u8::from(bit)) & 0b11111
}
