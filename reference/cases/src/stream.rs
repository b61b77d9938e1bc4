//! Streams of bits put together, command by command.

use crate::code;

/// Bits in the order in which they arrive.
#[derive(Clone, Debug, Default, PartialEq, Eq)]
pub struct Stream {
    pub bits: Vec<bool>,
}

impl Stream {
    pub fn new() -> Stream {
        Stream::default()
    }

    /// Adds a pattern of 0 and 1; anything else in it only parts the digits.
    pub fn pattern(mut self, pattern: &str) -> Stream {
        let digits = pattern.chars().filter(|c| matches!(c, '0' | '1'));
        self.bits.extend(digits.map(|c| c == '1'));
        self
    }

    pub fn zeros(mut self, count: usize) -> Stream {
        self.bits.resize(self.bits.len() + count, false);
        self
    }

    /// Adds a number, highest bit first.
    pub fn number(mut self, value: u32, width: u32) -> Stream {
        self.bits
            .extend((0..width).rev().map(|place| value >> place & 1 == 1));
        self
    }

    /// Adds bits as they are.
    pub fn raw(mut self, bits: &[bool]) -> Stream {
        self.bits.extend_from_slice(bits);
        self
    }

    pub fn lv1(self) -> Stream {
        self.pattern(code::LV1)
    }

    pub fn fast(self, body: u8) -> Stream {
        self.pattern(code::HEADER).number(u32::from(body), 4)
    }

    pub fn bcr(self) -> Stream {
        self.fast(code::BCR)
    }

    pub fn ecr(self) -> Stream {
        self.fast(code::ECR)
    }

    pub fn cal(self) -> Stream {
        self.fast(code::CAL)
    }

    pub fn sync(self) -> Stream {
        self.fast(code::SYNC)
    }

    /// A Slow command without its Field 5.
    pub fn slow(self, field3: u8, field4: u8) -> Stream {
        self.fast(code::SLOW)
            .number(u32::from(field3), 4)
            .number(u32::from(field4), 4)
    }

    pub fn wr_register(self, address: u8, value: u16) -> Stream {
        self.slow(code::WR_REGISTER, address)
            .number(u32::from(value), 16)
    }

    pub fn rd_register(self, address: u8) -> Stream {
        self.slow(code::RD_REGISTER, address).zeros(16)
    }

    pub fn wr_fifo(self, word: u32) -> Stream {
        self.slow(code::WR_FIFO, 0).number(word, 27)
    }

    pub fn rd_fifo(self, fifo: u8) -> Stream {
        self.slow(code::RD_FIFO, fifo).zeros(27)
    }

    /// A front-end frame, each bit for eight cycles.
    pub fn front_end(mut self, field3: u8, frame: &[bool]) -> Stream {
        self = self.slow(field3, 0);
        for &bit in frame {
            self.bits.extend([bit; 8]);
        }
        self
    }

    /// A front-end frame by the eight cycles of each bit, the first highest.
    pub fn groups(self, field3: u8, groups: &[u8]) -> Stream {
        groups.iter().fold(self.slow(field3, 0), |stream, &group| {
            stream.number(u32::from(group), 8)
        })
    }

    /// A reply on the line back, each bit for eight cycles (document 02, F-12).
    pub fn reply(self, data: &[bool]) -> Stream {
        let groups = data.iter().map(|&bit| if bit { 0xFF } else { 0x00 });
        self.reply_groups(&groups.collect::<Vec<u8>>())
    }

    /// A reply by the eight cycles of each bit, the first highest.
    pub fn reply_groups(self, groups: &[u8]) -> Stream {
        let begun = self.pattern(code::REPLY_HEADER);
        groups
            .iter()
            .fold(begun, |stream, &group| stream.number(u32::from(group), 8))
    }

    pub fn wr_receiver(self, frame: &[bool]) -> Stream {
        self.slow(code::WR_RECEIVER, 0).raw(frame)
    }

    pub fn en_data_take(self) -> Stream {
        self.slow(code::EN_DATA_TAKE, 0)
    }

    pub fn reset_mcc(self) -> Stream {
        self.slow(code::GLOBAL_RESET_MCC, 0)
    }

    pub fn reset_fe(self, sync_width: u8) -> Stream {
        self.slow(code::GLOBAL_RESET_FE, 0)
            .number(u32::from(sync_width), 4)
    }

    /// The bits packed into bytes, the last one filled up with zeros.
    pub fn bytes(&self) -> Vec<u8> {
        let pack = |bits: &[bool]| {
            let byte = bits.iter().fold(0, |byte, &bit| byte << 1 | u8::from(bit));
            byte << (8 - bits.len())
        };
        self.bits.chunks(8).map(pack).collect()
    }

    /// The bytes as hexadecimal lines of at most 32 bytes.
    pub fn lines(&self) -> Vec<u8> {
        hex_lines(&self.bytes())
    }
}

/// Bytes as hexadecimal lines of at most 32 bytes.
pub fn hex_lines(bytes: &[u8]) -> Vec<u8> {
    let mut lines = String::new();
    for chunk in bytes.chunks(32) {
        for byte in chunk {
            lines.push_str(&format!("{byte:02X}"));
        }
        lines.push('\n');
    }
    lines.into_bytes()
}
