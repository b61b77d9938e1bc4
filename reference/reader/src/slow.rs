//! The Slow commands and the lengths of their Field 5 ("Slow commands").

pub const WR_REGISTER: u8 = 0;
pub const RD_REGISTER: u8 = 1;
pub const WR_FIFO: u8 = 2;
pub const RD_FIFO: u8 = 3;
pub const WR_FRONT_END: u8 = 4;
pub const RD_FRONT_END: u8 = 5;
pub const WR_RECEIVER: u8 = 6;
pub const EN_DATA_TAKE: u8 = 8;
pub const GLOBAL_RESET_MCC: u8 = 9;
pub const GLOBAL_RESET_FE: u8 = 10;

/// Cycles that a front-end bit lasts.
pub const GROUP_CYCLES: u32 = 8;

/// Data bits of a front-end frame: CNT<15:3>, not the misprinted CNT<15:13>.
pub fn data_bits(cnt: u16) -> u32 {
    u32::from(cnt >> 3)
}

/// Control bits of a front-end frame: eight times CNT<2:0>.
pub fn control_bits(cnt: u16) -> u32 {
    u32::from(cnt & 7) * 8
}

/// Bits of a WrReceiver: eight times CNT<12:0>.
pub fn receiver_bits(cnt: u16) -> u32 {
    u32::from(cnt & 0x1FFF) * 8
}

/// Cycles of Field 5 by the present CNT; `None` for a bad Slow.
pub fn field5_cycles(field3: u8, cnt: u16) -> Option<u32> {
    match field3 {
        WR_REGISTER | RD_REGISTER => Some(16),
        WR_FIFO | RD_FIFO => Some(27),
        WR_FRONT_END | RD_FRONT_END => Some((data_bits(cnt) + control_bits(cnt)) * GROUP_CYCLES),
        WR_RECEIVER => Some(receiver_bits(cnt)),
        EN_DATA_TAKE | GLOBAL_RESET_MCC => Some(0),
        GLOBAL_RESET_FE => Some(4),
        _ => None,
    }
}

/// Whether Field 5 holds a number that the command uses. Reads only count
/// their cycles, and frames go to the tray.
pub fn keeps_field5(field3: u8) -> bool {
    matches!(field3, WR_REGISTER | WR_FIFO | GLOBAL_RESET_FE)
}

/// Whether the command carries each bit for eight cycles.
pub fn has_groups(field3: u8) -> bool {
    matches!(field3, WR_FRONT_END | RD_FRONT_END)
}

/// Whether the command has a Field 5 at all.
pub fn has_field5(field3: u8) -> bool {
    matches!(field3, WR_REGISTER..=WR_RECEIVER | GLOBAL_RESET_FE)
}
