//! The numbers of commands, by the chip paper's Tables 1-1 and 1-2.

/// A trigger.
pub const LV1: &str = "11101";
/// The same with one bit hit: the first received, then the second, and so on
/// (Table 1-4).
pub const FLIPPED_LV1: [&str; 5] = ["01101", "10101", "11001", "11111", "11100"];
/// The last four bits of one. Straight after a command they are an LV1 whose
/// first bit was hit, as the window has a 0 there.
pub const LV1_TAIL: &str = "1101";
/// Field 1 of every other command; Field 2 follows.
pub const HEADER: &str = "10110";

/// The header of a reply (document 02, F-12).
pub const REPLY_HEADER: &str = "11101";

/// Field 2 of the Fast commands, and of every Slow one.
pub const BCR: u8 = 0b0001;
pub const ECR: u8 = 0b0010;
pub const CAL: u8 = 0b0100;
pub const SYNC: u8 = 0b1000;
pub const SLOW: u8 = 0b1011;

/// Field 3 of the Slow commands.
pub const WR_REGISTER: u8 = 0b0000;
pub const RD_REGISTER: u8 = 0b0001;
pub const WR_FIFO: u8 = 0b0010;
pub const RD_FIFO: u8 = 0b0011;
pub const WR_FRONT_END: u8 = 0b0100;
pub const RD_FRONT_END: u8 = 0b0101;
pub const WR_RECEIVER: u8 = 0b0110;
pub const EN_DATA_TAKE: u8 = 0b1000;
pub const GLOBAL_RESET_MCC: u8 = 0b1001;
pub const GLOBAL_RESET_FE: u8 = 0b1010;

/// Bits of a front-end frame: CNT<15:3> data bits, and eight control bits for
/// each of CNT<2:0>. Each lasts eight cycles.
pub fn front_end_bits(cnt: u16) -> u32 {
    u32::from(cnt) / 8 + u32::from(cnt) % 8 * 8
}

/// Bits of a WrReceiver: eight for each of CNT<12:0>.
pub fn receiver_bits(cnt: u16) -> u32 {
    u32::from(cnt) % 8_192 * 8
}
