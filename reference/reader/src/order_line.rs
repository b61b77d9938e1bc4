//! The text of orders that the program `compose` reads: a line to an order,
//! and why it is refused (document 02, F-2).

use crate::compose::Unfit;
use crate::order::{fields, sized, Frame, Order, ADDRESS_BITS};
use crate::recogniser::{BCR, CAL, ECR, SYNC};
use crate::record::kind;
use crate::slow;
use std::fmt;

/// Characters that a line may have at most.
pub const LINE_CHARACTERS: usize = 32_768;

/// Bytes that the stream of a text may have at most.
pub const STREAM_BYTES: usize = 1_048_576;

/// The commands' names, by kind.
const NAMES: [(&str, u8); 15] = [
    ("lv1", kind::LV1),
    ("bcr", kind::FAST + BCR),
    ("ecr", kind::FAST + ECR),
    ("cal", kind::FAST + CAL),
    ("sync", kind::FAST + SYNC),
    ("wr-register", kind::SLOW + slow::WR_REGISTER),
    ("rd-register", kind::SLOW + slow::RD_REGISTER),
    ("wr-fifo", kind::SLOW + slow::WR_FIFO),
    ("rd-fifo", kind::SLOW + slow::RD_FIFO),
    ("wr-front-end", kind::SLOW + slow::WR_FRONT_END),
    ("rd-front-end", kind::SLOW + slow::RD_FRONT_END),
    ("wr-receiver", kind::SLOW + slow::WR_RECEIVER),
    ("en-data-take", kind::SLOW + slow::EN_DATA_TAKE),
    ("global-reset-mcc", kind::SLOW + slow::GLOBAL_RESET_MCC),
    ("global-reset-fe", kind::SLOW + slow::GLOBAL_RESET_FE),
];

/// What of a text of orders is refused.
#[derive(Clone, Copy, Debug, PartialEq, Eq)]
pub enum WrongOrders {
    /// A line, by its number from 1.
    Line { line: u64, why: WrongLine },
    /// The stream has more than `STREAM_BYTES` bytes.
    TooLong,
}

/// Why a line is refused.
#[derive(Clone, Copy, Debug, PartialEq, Eq)]
pub enum WrongLine {
    Characters,
    Name,
    CountOfFields,
    /// A field, or the zeros ahead, is no number of its size.
    Field,
    /// It does not fit behind the orders ahead of it.
    Unfit(Unfit),
}

impl WrongOrders {
    /// The number of the refusal.
    pub fn number(self) -> u8 {
        match self {
            WrongOrders::Line {
                why: WrongLine::Unfit(Unfit::Zeros { .. }),
                ..
            } => 10,
            WrongOrders::Line { .. } => 9,
            WrongOrders::TooLong => 11,
        }
    }

    /// The number of the line; 0 where it is none's fault.
    pub fn line(self) -> u64 {
        match self {
            WrongOrders::Line { line, .. } => line,
            WrongOrders::TooLong => 0,
        }
    }
}

impl fmt::Display for WrongOrders {
    fn fmt(&self, f: &mut fmt::Formatter) -> fmt::Result {
        match self {
            WrongOrders::Line { line, why } => write!(f, "line {line}: {why}"),
            WrongOrders::TooLong => write!(f, "the stream is longer than {STREAM_BYTES} bytes"),
        }
    }
}

impl fmt::Display for WrongLine {
    fn fmt(&self, f: &mut fmt::Formatter) -> fmt::Result {
        match self {
            WrongLine::Characters => {
                write!(f, "the line is longer than {LINE_CHARACTERS} characters")
            }
            WrongLine::Name => write!(f, "no command has this name"),
            WrongLine::CountOfFields => write!(f, "the command has another count of fields"),
            WrongLine::Field => write!(f, "a field is no number of its size"),
            WrongLine::Unfit(Unfit::FrameBits { asked, given }) => {
                write!(
                    f,
                    "CNT asks for {asked} frame bits, and the line gives {given}"
                )
            }
            WrongLine::Unfit(Unfit::Zeros { asked, given }) => write!(
                f,
                "the timing table asks for {asked} zeros ahead of this command, \
                 and the line gives {given}"
            ),
        }
    }
}

/// The order of a line, given without its line feed; `None` if it has no words.
pub fn order_line(line: &[u8]) -> Result<Option<Order>, WrongLine> {
    if line.len() > LINE_CHARACTERS {
        return Err(WrongLine::Characters);
    }
    let ahead_of_comment = line.split(|&c| c == b'#').next().unwrap_or_default();
    let words = ahead_of_comment.split(|c| b" \t\r".contains(c));
    let words: Vec<&[u8]> = words.filter(|word| !word.is_empty()).collect();
    match words.split_first() {
        None => Ok(None),
        Some((name, rest)) => order(name, rest).map(Some),
    }
}

fn order(name: &[u8], words: &[&[u8]]) -> Result<Order, WrongLine> {
    let named = NAMES.iter().find(|(known, _)| known.as_bytes() == name);
    let &(_, kind) = named.ok_or(WrongLine::Name)?;
    let uses = fields(kind).ok_or(WrongLine::Name)?;
    let count = [uses.address, uses.value > 0, uses.frame];
    let count = count.into_iter().filter(|&used| used).count();
    if words.len() != count && words.len() != count + 1 {
        return Err(WrongLine::CountOfFields);
    }
    let mut words = words.iter();
    let mut word = || *words.next().expect("they are counted");
    let mut order = Order {
        kind,
        ..Order::default()
    };
    if uses.address {
        order.address = hexadecimal(word(), ADDRESS_BITS)? as u8;
    }
    if uses.value > 0 {
        order.value = hexadecimal(word(), uses.value)?;
    }
    if uses.frame {
        order.frame = frame(word()).ok_or(WrongLine::Field)?;
    }
    if let Some(zeros) = words.next() {
        order.zeros = number(zeros, 10).ok_or(WrongLine::Field)?;
    }
    Ok(order)
}

/// A number of one digit or more. Where it is beyond 64 bits, their greatest
/// stands for it, which is beyond every size and every room too.
fn number(digits: &[u8], radix: u32) -> Option<u64> {
    if digits.is_empty() {
        return None;
    }
    digits.iter().try_fold(0_u64, |number, &character| {
        let digit = char::from(character).to_digit(radix)?;
        let higher = number.saturating_mul(radix.into());
        Some(higher.saturating_add(digit.into()))
    })
}

/// A hexadecimal number of so many bits at most.
fn hexadecimal(word: &[u8], bits: u32) -> Result<u32, WrongLine> {
    let number = number(word, 16).and_then(|number| sized(number, bits));
    number.ok_or(WrongLine::Field)
}

/// Hexadecimal digits, then a colon and the count of bits, or else all bits.
fn frame(word: &[u8]) -> Option<Frame> {
    let (digits, bits) = match word.iter().position(|&c| c == b':') {
        Some(colon) => (&word[..colon], number(&word[colon + 1..], 10)?),
        None => (word, 4 * word.len() as u64),
    };
    let digit = |&character: &u8| char::from(character).to_digit(16).map(|d| d as u8);
    let digits: Vec<u8> = digits.iter().map(digit).collect::<Option<_>>()?;
    if bits > 4 * digits.len() as u64 {
        return None;
    }
    let byte = |pair: &[u8]| pair[0] << 4 | pair.get(1).unwrap_or(&0);
    let bytes: Vec<u8> = digits.chunks(2).map(byte).collect();
    Frame::first(bits, &bytes)
}
