//! Orders (document 02, F-2): a command by its kind, its fields, and the zeros
//! ahead of it.

use crate::hunting::bit_at;
use crate::limits::FIFO_WORD_BITS;
use crate::recogniser::{BCR, CAL, ECR, SYNC};
use crate::record::kind;
use crate::slow;

/// An order whose used fields have their sizes; unused ones are 0 or empty.
/// Whether its frame is as long as CNT asks shows only among other orders.
#[derive(Clone, Debug, Default, PartialEq, Eq)]
pub struct Order {
    pub zeros: u64,
    /// That of the command's record.
    pub kind: u8,
    pub address: u8,
    pub value: u32,
    pub frame: Frame,
}

/// The bits of a frame, packed, highest bit first. What stands behind them is
/// not looked at.
#[derive(Clone, Debug, Default, PartialEq, Eq)]
pub struct Frame {
    bytes: Vec<u8>,
    pub bits: u64,
}

impl Frame {
    /// The first bits of these bytes, if there are so many.
    pub fn first(bits: u64, bytes: &[u8]) -> Option<Frame> {
        let needed = usize::try_from(bits.div_ceil(8)).ok()?;
        let bytes = bytes.get(..needed)?.to_vec();
        Some(Frame { bytes, bits })
    }

    pub fn each(&self) -> impl Iterator<Item = bool> + '_ {
        (0..self.bits).map(|place| bit_at(&self.bytes, place))
    }
}

/// The fields that an order uses: all that the command's record or the tray
/// shows of it.
#[derive(Clone, Copy, Debug, Default, PartialEq, Eq)]
pub struct Fields {
    pub address: bool,
    /// Bits of its value; 0 if it uses none.
    pub value: u32,
    pub frame: bool,
}

/// Bits of an address.
pub const ADDRESS_BITS: u32 = 4;

/// The fields of a kind; `None` for one that cannot be ordered.
pub fn fields(kind: u8) -> Option<Fields> {
    let none = Fields::default();
    match kind {
        kind::LV1 => Some(none),
        kind::SLOW.. => slow_fields(kind - kind::SLOW),
        kind::FAST.. => matches!(kind - kind::FAST, BCR | ECR | CAL | SYNC).then_some(none),
        _ => None,
    }
}

fn slow_fields(field3: u8) -> Option<Fields> {
    let (address, value, frame) = match field3 {
        slow::WR_REGISTER => (true, 16, false),
        slow::RD_REGISTER | slow::RD_FIFO => (true, 0, false),
        slow::WR_FIFO => (false, FIFO_WORD_BITS, false),
        slow::GLOBAL_RESET_FE => (false, 4, false),
        slow::WR_FRONT_END | slow::RD_FRONT_END | slow::WR_RECEIVER => (false, 0, true),
        slow::EN_DATA_TAKE | slow::GLOBAL_RESET_MCC => (false, 0, false),
        _ => return None,
    };
    Some(Fields {
        address,
        value,
        frame,
    })
}

/// The number if it has no more bits than these.
pub fn sized(number: u64, bits: u32) -> Option<u32> {
    (number >> bits == 0).then_some(number as u32)
}

impl Order {
    /// Words of an order: kind, zeros, address, value, first byte of the frame
    /// and count of its bits.
    pub const WORDS: usize = 6;

    /// Reads an order with its frame, of whose bytes all from one on are lent.
    /// `None` for an unknown command, a used field of the wrong size, and too
    /// few words or frame bits.
    pub fn from_words(words: &[u64], frames: &[u8]) -> Option<Order> {
        let &[kind, zeros, address, value, frame, bits] = words else {
            return None;
        };
        let kind = u8::try_from(kind).ok()?;
        let uses = fields(kind)?;
        let mut order = Order {
            zeros,
            kind,
            ..Order::default()
        };
        if uses.address {
            order.address = sized(address, ADDRESS_BITS)? as u8;
        }
        if uses.value > 0 {
            order.value = sized(value, uses.value)?;
        }
        if uses.frame {
            let from = usize::try_from(frame).unwrap_or(usize::MAX);
            let lent = frames.get(from..).unwrap_or_default();
            order.frame = Frame::first(bits, lent)?;
        }
        Some(order)
    }
}
