//! The composer (document 02, F-2): from a list of orders to the stream that
//! sends them.

use crate::limits::CLOCK_LIMIT;
use crate::order::Order;
use crate::plan::Plan;
use crate::recogniser::{FIELD_BITS, SLOW};
use crate::record::kind;
use crate::slow;
use crate::timing::zeros_asked;
use crate::window::{HEADER, LV1, WINDOW_BITS};

/// Why nothing is composed.
#[derive(Clone, Copy, Debug, PartialEq, Eq)]
pub enum NotComposed {
    WrongPlan,
    /// The order of this number, from 0, is unknown, or a field that it uses
    /// has the wrong size.
    WrongOrder(u64),
    /// Too few zeros are ahead of this one.
    TooFewZeros(u64),
    /// The output cannot hold the stream, or it passes the last cycle.
    TooLong,
}

impl NotComposed {
    /// The number of the refusal.
    pub fn number(self) -> u8 {
        match self {
            NotComposed::WrongPlan => 1,
            NotComposed::WrongOrder(_) => 9,
            NotComposed::TooFewZeros(_) => 10,
            NotComposed::TooLong => 11,
        }
    }

    /// The order that it names; 0 where it names none.
    pub fn order(self) -> u64 {
        match self {
            NotComposed::WrongOrder(order) | NotComposed::TooFewZeros(order) => order,
            NotComposed::WrongPlan | NotComposed::TooLong => 0,
        }
    }
}

/// Writes the stream of the orders, six words each, into the first bytes of
/// the output, and answers the count of its bits. A refusal writes nothing.
pub fn compose(
    plan: Plan,
    orders: &[u64],
    frames: &[u8],
    output: &mut [u8],
) -> Result<u64, NotComposed> {
    if !plan.opens() {
        return Err(NotComposed::WrongPlan);
    }
    let mut composer = Composer::start(plan, output.len());
    for (number, words) in (0..).zip(orders.chunks(Order::WORDS)) {
        let order = Order::from_words(words, frames).ok_or(NotComposed::WrongOrder(number))?;
        composer.add(&order).map_err(|unfit| match unfit {
            Unfit::FrameBits { .. } => NotComposed::WrongOrder(number),
            Unfit::Zeros { .. } => NotComposed::TooFewZeros(number),
        })?;
    }
    let stream = composer.stream().ok_or(NotComposed::TooLong)?;
    output[..stream.bytes.len()].copy_from_slice(stream.bytes);
    Ok(stream.bits)
}

/// Why an order does not fit where it stands.
#[derive(Clone, Copy, Debug, PartialEq, Eq)]
pub enum Unfit {
    /// CNT asks for another count of frame bits.
    FrameBits { asked: u64, given: u64 },
    /// The timing table asks for more zeros ahead.
    Zeros { asked: u64, given: u64 },
}

/// A whole stream, its last byte filled up with zeros.
#[derive(Clone, Copy, Debug, PartialEq, Eq)]
pub struct Stream<'a> {
    pub bits: u64,
    pub bytes: &'a [u8],
}

/// Composes a stream order by order, with CNT as they write it.
#[derive(Clone, Debug)]
pub struct Composer {
    cnt_address: u8,
    cnt: u16,
    /// The kind of the order before.
    before: Option<u8>,
    written: Written,
}

impl Composer {
    /// For an output of so many bytes.
    pub fn start(plan: Plan, room: usize) -> Composer {
        Composer {
            cnt_address: plan.cnt,
            cnt: 0,
            before: None,
            written: Written::with_room(room),
        }
    }

    /// Sends an order behind those so far; one that is unfit changes nothing.
    pub fn add(&mut self, order: &Order) -> Result<(), Unfit> {
        let given = order.frame.bits;
        if let Some(asked) = frame_bits(order.kind, self.cnt).filter(|&asked| asked != given) {
            return Err(Unfit::FrameBits { asked, given });
        }
        let asked = self
            .before
            .map_or(0, |before| zeros_asked(before, order.kind));
        let given = order.zeros;
        if given < asked {
            return Err(Unfit::Zeros { asked, given });
        }
        self.written.zeros(order.zeros);
        self.send(order);
        self.follow_cnt(order);
        self.before = Some(order.kind);
        Ok(())
    }

    /// CNT as a reader has it behind the order.
    fn follow_cnt(&mut self, order: &Order) {
        match order.kind.checked_sub(kind::SLOW) {
            Some(slow::WR_REGISTER) if order.address == self.cnt_address => {
                self.cnt = order.value as u16;
            }
            Some(slow::GLOBAL_RESET_MCC) => self.cnt = 0,
            _ => {}
        }
    }

    /// The count of bits of all orders so far.
    pub fn bits(&self) -> u128 {
        self.written.bits
    }

    /// The stream of all orders so far, if there is room for it.
    pub fn stream(&self) -> Option<Stream<'_>> {
        self.written.whole()
    }

    /// The bits of a command (chip paper, Tables 1-1 and 1-2).
    fn send(&mut self, order: &Order) {
        let written = &mut self.written;
        match order.kind {
            kind::LV1 => written.number(LV1.into(), WINDOW_BITS),
            kind::SLOW.. => {
                let field3 = order.kind - kind::SLOW;
                written.number(HEADER.into(), WINDOW_BITS);
                for field in [SLOW, field3, order.address] {
                    written.number(field.into(), FIELD_BITS.into());
                }
                self.send_field5(field3, order);
            }
            fast => {
                written.number(HEADER.into(), WINDOW_BITS);
                written.number((fast - kind::FAST).into(), FIELD_BITS.into());
            }
        }
    }

    fn send_field5(&mut self, field3: u8, order: &Order) {
        let written = &mut self.written;
        let cycles = match field3 {
            slow::WR_RECEIVER => 1,
            field3 if slow::has_groups(field3) => slow::GROUP_CYCLES,
            _ => {
                // An order that does not use the field has value 0.
                let length = slow::field5_cycles(field3, self.cnt).unwrap_or(0);
                return written.number(order.value, length);
            }
        };
        for bit in order.frame.each() {
            (0..cycles).for_each(|_| written.bit(bit));
        }
    }
}

/// The frame bits that CNT asks of a command; `None` if it has no frame.
fn frame_bits(kind: u8, cnt: u16) -> Option<u64> {
    let bits = match kind.checked_sub(kind::SLOW)? {
        slow::WR_RECEIVER => slow::receiver_bits(cnt),
        field3 if slow::has_groups(field3) => slow::data_bits(cnt) + slow::control_bits(cnt),
        _ => return None,
    };
    Some(bits.into())
}

/// The opposite of number 11's condition, for an output of so many bytes.
pub fn fits(bits: u128, bytes: usize) -> bool {
    bits <= 8 * bytes as u128 && bits <= CLOCK_LIMIT.into()
}

/// The bits of a stream so far. They are counted however many they are, and
/// kept as long as there is room for all.
#[derive(Clone, Debug)]
struct Written {
    bytes: Vec<u8>,
    /// Zeros ahead may be near 2^64 at each order.
    bits: u128,
    /// In bytes.
    room: usize,
}

impl Written {
    fn with_room(bytes: usize) -> Written {
        Written {
            bytes: Vec::new(),
            bits: 0,
            room: bytes,
        }
    }

    fn fits(&self) -> bool {
        fits(self.bits, self.room)
    }

    fn zeros(&mut self, count: u64) {
        self.bits += u128::from(count);
        if self.fits() {
            self.bytes.resize(self.bits.div_ceil(8) as usize, 0);
        }
    }

    fn bit(&mut self, bit: bool) {
        let low = 7 - (self.bits % 8) as u32;
        self.zeros(1);
        if self.fits() {
            let last = self.bytes.len() - 1;
            self.bytes[last] |= u8::from(bit) << low;
        }
    }

    /// Highest bit first.
    fn number(&mut self, number: u32, length: u32) {
        for place in (0..length).rev() {
            self.bit(number >> place & 1 == 1);
        }
    }

    fn whole(&self) -> Option<Stream<'_>> {
        self.fits().then_some(Stream {
            bits: self.bits as u64,
            bytes: &self.bytes,
        })
    }
}
