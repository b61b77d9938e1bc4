//! The reply on the line back from the chip (document 02, F-12): a header, one
//! cycle a bit, and then the data, each bit for eight cycles.

use crate::group::Group;
use crate::hunting::bit_at;
use crate::slow::GROUP_CYCLES;
use crate::take::input_and_range_fit;
use crate::tray::{store_bit, FrameBit};
use crate::window::slide;

/// The header, its first bit highest. No bit of it may be hit.
const HEADER: u8 = 0b11101;

/// The answer on a range of bits.
#[derive(Clone, Copy, Debug, PartialEq, Eq)]
pub enum Reply {
    /// All bits that are expected.
    Whole,
    NoHeader,
    /// No more than so many complete bits behind the header.
    CutShort(u64),
}

/// Why nothing is read.
#[derive(Clone, Copy, Debug, PartialEq, Eq)]
pub enum NoReply {
    /// No bits are expected, or too many.
    Expected,
    /// The buffer cannot hold the expected bits.
    Buffer,
    /// The input is too long, or the range passes its end.
    Range,
}

impl NoReply {
    /// The number of the refusal.
    pub fn number(self) -> u8 {
        match self {
            NoReply::Expected => 18,
            NoReply::Buffer => 19,
            NoReply::Range => 5,
        }
    }
}

/// How many data bits are expected: 1 to 8,191.
#[derive(Clone, Copy, Debug, PartialEq, Eq)]
pub struct DataBits(u32);

impl DataBits {
    pub const MOST: u64 = 8_191;

    /// `None` where number 18 refuses the count.
    pub const fn new(count: u64) -> Option<DataBits> {
        match count {
            1..=DataBits::MOST => Some(DataBits(count as u32)),
            _ => None,
        }
    }

    pub fn count(self) -> u64 {
        self.0.into()
    }

    /// Bytes that hold them.
    pub fn bytes(self) -> usize {
        self.0.div_ceil(8) as usize
    }
}

/// Reads a reply of `expected` bits from `count` bits of `input`, from bit
/// `first_bit` on. Complete bits fill the buffer from its start; no byte is
/// changed in which there is none.
pub fn read_reply(
    input: &[u8],
    first_bit: u64,
    count: u64,
    expected: u64,
    buffer: &mut [u8],
) -> Result<Reply, NoReply> {
    let expected = DataBits::new(expected).ok_or(NoReply::Expected)?;
    if buffer.len() < expected.bytes() {
        return Err(NoReply::Buffer);
    }
    if !input_and_range_fit(input, first_bit, count) {
        return Err(NoReply::Range);
    }
    let mut reader = ReplyReader::start(expected);
    for place in first_bit..first_bit + count {
        if let Some(data_bit) = reader.take(bit_at(input, place)) {
            store_bit(buffer, data_bit);
        }
    }
    Ok(reader.answer())
}

/// Reads a reply bit by bit. It keeps none of the data but the unfinished
/// group's.
#[derive(Clone, Debug, PartialEq, Eq)]
pub struct ReplyReader {
    expected: DataBits,
    taken: u64,
    part: Part,
}

#[derive(Clone, Copy, Debug, PartialEq, Eq)]
enum Part {
    /// The header is sought. The window holds the last five bits, and zeros in
    /// the place of bits not yet taken: the header begins with a 1, so that
    /// they complete none.
    Header { window: u8 },
    /// So many cycles have followed the header, which is not sought again.
    Data { cycles: u32, group: Group },
}

impl ReplyReader {
    pub fn start(expected: DataBits) -> ReplyReader {
        ReplyReader {
            expected,
            taken: 0,
            part: Part::Header { window: 0 },
        }
    }

    /// The bits taken so far.
    pub fn taken(&self) -> u64 {
        self.taken
    }

    /// Takes the next bit; answers the data bit that it completes. After the
    /// expected ones there are no more.
    pub fn take(&mut self, bit: bool) -> Option<FrameBit> {
        self.taken += 1;
        match &mut self.part {
            Part::Header { window } => {
                *window = slide(*window, bit);
                if *window == HEADER {
                    self.part = Part::Data {
                        cycles: 0,
                        group: Group::default(),
                    };
                }
                None
            }
            Part::Data { cycles, group } => {
                let place = *cycles / GROUP_CYCLES;
                if place == self.expected.0 {
                    return None;
                }
                let voted = group.take(*cycles % GROUP_CYCLES, bit);
                *cycles += 1;
                voted.map(|bit| FrameBit { place, bit })
            }
        }
    }

    /// The complete data bits so far.
    pub fn complete(&self) -> u64 {
        match self.part {
            Part::Header { .. } => 0,
            Part::Data { cycles, .. } => (cycles / GROUP_CYCLES).into(),
        }
    }

    /// The answer if the range ends here.
    pub fn answer(&self) -> Reply {
        let complete = self.complete();
        match self.part {
            Part::Header { .. } => Reply::NoHeader,
            Part::Data { .. } if complete == self.expected.count() => Reply::Whole,
            Part::Data { .. } => Reply::CutShort(complete),
        }
    }
}
