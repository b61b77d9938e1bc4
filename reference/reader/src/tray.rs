//! The frame buffer, document 01's "tray" ("What commands do").

/// One bit of a frame and its place, counted from the frame's first.
#[derive(Clone, Copy, Debug, PartialEq, Eq)]
pub struct FrameBit {
    pub place: u32,
    pub bit: bool,
}

/// Stores a frame bit. The byte's first bit zeroes the rest as it is stored,
/// so that the unused end of a frame's last byte is 0.
pub fn store_bit(tray: &mut [u8], frame_bit: FrameBit) {
    let byte = &mut tray[(frame_bit.place / 8) as usize];
    let low = 7 - frame_bit.place % 8;
    if low == 7 {
        *byte = 0;
    }
    *byte = *byte & !(1 << low) | u8::from(frame_bit.bit) << low;
}

/// The part of the tray that a frame of so many bits fills; the empty part
/// when the tray has fewer.
pub fn frame_part(tray: &[u8], bits: u64) -> &[u8] {
    // Whole bytes on both sides, so that no count can overflow.
    let bytes = bits.div_ceil(8);
    if bytes > tray.len() as u64 {
        return &[];
    }
    &tray[..bytes as usize]
}
