//! Lists of orders (document 02, F-2): put together, random ones that are fit,
//! and the words in which they are lent, with a flaw or none.

use crate::generate::{bits, Addresses};
use crate::{code, Random, Stream};

/// A command with the fields that its record or the tray shows.
#[derive(Clone, Debug, PartialEq, Eq)]
pub enum Ordered {
    Lv1,
    /// By its body.
    Fast(u8),
    WrRegister(u8, u16),
    RdRegister(u8),
    WrFifo(u32),
    RdFifo(u8),
    /// By its Field 3.
    FrontEnd(u8, Vec<bool>),
    WrReceiver(Vec<bool>),
    EnDataTake,
    ResetMcc,
    ResetFe(u8),
}

#[derive(Clone, Debug, PartialEq, Eq)]
pub struct Order {
    pub zeros: u64,
    pub command: Ordered,
}

impl Ordered {
    /// The kind of its record.
    pub fn kind(&self) -> u8 {
        let slow = |field3: u8| 0x20 + field3;
        match *self {
            Ordered::Lv1 => 0x01,
            Ordered::Fast(body) => 0x10 + body,
            Ordered::WrRegister(..) => slow(code::WR_REGISTER),
            Ordered::RdRegister(_) => slow(code::RD_REGISTER),
            Ordered::WrFifo(_) => slow(code::WR_FIFO),
            Ordered::RdFifo(_) => slow(code::RD_FIFO),
            Ordered::FrontEnd(field3, _) => slow(field3),
            Ordered::WrReceiver(_) => slow(code::WR_RECEIVER),
            Ordered::EnDataTake => slow(code::EN_DATA_TAKE),
            Ordered::ResetMcc => slow(code::GLOBAL_RESET_MCC),
            Ordered::ResetFe(_) => slow(code::GLOBAL_RESET_FE),
        }
    }

    /// Its name in a text of orders.
    pub fn name(&self) -> &'static str {
        match *self {
            Ordered::Lv1 => "lv1",
            Ordered::Fast(code::BCR) => "bcr",
            Ordered::Fast(code::ECR) => "ecr",
            Ordered::Fast(code::CAL) => "cal",
            Ordered::Fast(_) => "sync",
            Ordered::WrRegister(..) => "wr-register",
            Ordered::RdRegister(_) => "rd-register",
            Ordered::WrFifo(_) => "wr-fifo",
            Ordered::RdFifo(_) => "rd-fifo",
            Ordered::FrontEnd(code::WR_FRONT_END, _) => "wr-front-end",
            Ordered::FrontEnd(..) => "rd-front-end",
            Ordered::WrReceiver(_) => "wr-receiver",
            Ordered::EnDataTake => "en-data-take",
            Ordered::ResetMcc => "global-reset-mcc",
            Ordered::ResetFe(_) => "global-reset-fe",
        }
    }

    pub fn address(&self) -> Option<u8> {
        match *self {
            Ordered::WrRegister(address, _)
            | Ordered::RdRegister(address)
            | Ordered::RdFifo(address) => Some(address),
            _ => None,
        }
    }

    /// Its value, and how many bits that may have.
    pub fn value(&self) -> Option<(u64, u32)> {
        match *self {
            Ordered::WrRegister(_, value) => Some((value.into(), 16)),
            Ordered::WrFifo(word) => Some((word.into(), 27)),
            Ordered::ResetFe(sync_width) => Some((sync_width.into(), 4)),
            _ => None,
        }
    }

    pub fn frame(&self) -> Option<&[bool]> {
        match self {
            Ordered::FrontEnd(_, frame) | Ordered::WrReceiver(frame) => Some(frame),
            _ => None,
        }
    }

    /// A stream and then this command.
    pub fn add_to(&self, stream: Stream) -> Stream {
        match self {
            Ordered::Lv1 => stream.lv1(),
            Ordered::Fast(body) => stream.fast(*body),
            Ordered::WrRegister(address, value) => stream.wr_register(*address, *value),
            Ordered::RdRegister(address) => stream.rd_register(*address),
            Ordered::WrFifo(word) => stream.wr_fifo(*word),
            Ordered::RdFifo(fifo) => stream.rd_fifo(*fifo),
            Ordered::FrontEnd(field3, frame) => stream.front_end(*field3, frame),
            Ordered::WrReceiver(frame) => stream.wr_receiver(frame),
            Ordered::EnDataTake => stream.en_data_take(),
            Ordered::ResetMcc => stream.reset_mcc(),
            Ordered::ResetFe(sync_width) => stream.reset_fe(*sync_width),
        }
    }

    /// The zeros that the timing table asks between it and the next. A Slow
    /// counts as a Fast when it follows, and asks none after itself.
    pub fn zeros_ahead_of(&self, next: &Ordered) -> u64 {
        match (self, next) {
            (Ordered::Fast(code::SYNC), Ordered::Lv1) => 4,
            (_, Ordered::Lv1) => 0,
            (Ordered::Fast(code::BCR), _) => 2,
            (Ordered::Fast(code::ECR), _) => 1,
            _ => 0,
        }
    }
}

/// The stream of orders; their zeros are few.
pub fn stream_of(orders: &[Order]) -> Stream {
    orders.iter().fold(Stream::new(), |stream, order| {
        order.command.add_to(stream.zeros(order.zeros as usize))
    })
}

/// So many orders that are fit by a plan with these addresses, often with just
/// the zeros asked.
pub fn random_orders(random: &mut Random, at: Addresses, count: usize) -> Vec<Order> {
    let mut orders: Vec<Order> = Vec::new();
    let mut cnt = 0;
    for _ in 0..count {
        let command = random_command(random, at, cnt);
        match command {
            Ordered::WrRegister(address, value) if address == at.cnt => cnt = value,
            Ordered::ResetMcc => cnt = 0,
            _ => {}
        }
        let last = orders.last();
        let asked = last.map_or(0, |last| last.command.zeros_ahead_of(&command));
        let zeros = asked + more_zeros(random);
        orders.push(Order { zeros, command });
    }
    orders
}

fn more_zeros(random: &mut Random) -> u64 {
    match random.below(8) {
        0..=4 => 0,
        5 | 6 => random.below(6),
        _ => random.below(40),
    }
}

fn random_command(random: &mut Random, at: Addresses, cnt: u16) -> Ordered {
    let nibble = random.below(16) as u8;
    match random.below(28) {
        0..=3 => Ordered::Lv1,
        4..=9 => Ordered::Fast(1 << random.below(4)),
        10 => Ordered::EnDataTake,
        11 => Ordered::WrRegister(nibble, random.word() as u16),
        12..=14 => Ordered::WrRegister(at.cnt, random_cnt(random)),
        15 | 16 => Ordered::RdRegister(nibble),
        17 => Ordered::WrFifo(random.word() as u32 >> 5),
        18 => Ordered::RdFifo(nibble),
        19 => Ordered::ResetFe(nibble),
        20 if random.one_in(2) => Ordered::ResetMcc,
        20 => Ordered::WrRegister(at.feen, random.word() as u16),
        21..=24 => {
            let field3 = [code::WR_FRONT_END, code::RD_FRONT_END][random.below(2) as usize];
            Ordered::FrontEnd(field3, bits(random, code::front_end_bits(cnt)))
        }
        _ => Ordered::WrReceiver(bits(random, code::receiver_bits(cnt))),
    }
}

/// Small most often, as frames are made of it; now and then as large as it can
/// be, or with no WrReceiver bits.
fn random_cnt(random: &mut Random) -> u16 {
    let number = random.word() as u16;
    match random.below(256) {
        0 => [0xFFFF, 0x1FFF, 0xFFF8, 0x8007][random.below(4) as usize],
        1..=8 => 0xE000,
        9..=24 => 0,
        25..=32 => number & 0x01FF,
        33..=48 => number & 0xE003,
        _ => number & 0x003F,
    }
}

/// The words of an order, by place.
pub mod at {
    pub const KIND: usize = 0;
    pub const ZEROS: usize = 1;
    pub const ADDRESS: usize = 2;
    pub const VALUE: usize = 3;
    pub const FRAME: usize = 4;
    pub const BITS: usize = 5;
    /// How many there are.
    pub const WORDS: usize = 6;
}

/// Orders as they are lent.
#[derive(Clone, Debug, Default, PartialEq, Eq)]
pub struct Lent {
    pub orders: Vec<u64>,
    pub frames: Vec<u8>,
}

/// Orders in words. What they do not use holds anything, and so do the bits
/// between frames.
pub fn lent(orders: &[Order], random: &mut Random) -> Lent {
    let mut lent = Lent::default();
    for Order { zeros, command } in orders {
        let mut words: [u64; at::WORDS] = std::array::from_fn(|_| anything(random));
        words[at::KIND] = command.kind().into();
        words[at::ZEROS] = *zeros;
        if let Some(address) = command.address() {
            words[at::ADDRESS] = address.into();
        }
        if let Some((value, _)) = command.value() {
            words[at::VALUE] = value;
        }
        if let Some(frame) = command.frame() {
            words[at::BITS] = frame.len() as u64;
            // One of no bits fits wherever it is said to stand.
            if !frame.is_empty() {
                words[at::FRAME] = add_frame(&mut lent.frames, frame, random);
            }
        }
        lent.orders.extend(words);
    }
    let behind = random.below(2) * random.below(3);
    lent.frames.extend((0..behind).map(|_| random.word() as u8));
    lent
}

/// The first byte of the frame.
fn add_frame(frames: &mut Vec<u8>, frame: &[bool], random: &mut Random) -> u64 {
    let ahead = random.below(2) * random.below(4);
    frames.extend((0..ahead).map(|_| random.word() as u8));
    let first = frames.len() as u64;
    let filled = frame.len().wrapping_neg() % 8;
    let fill = bits(random, filled as u32);
    frames.extend(Stream::new().raw(frame).raw(&fill).bytes());
    first
}

fn anything(random: &mut Random) -> u64 {
    match random.below(4) {
        0 => 0,
        1 => u64::MAX,
        2 => random.below(300),
        _ => random.word(),
    }
}

/// What is wrong with orders as they are lent.
#[derive(Clone, Copy, Debug, PartialEq, Eq)]
pub enum Flaw {
    Nothing,
    /// An unknown kind.
    Kind,
    Address,
    Value,
    /// Another count of bits than CNT's.
    FrameBits,
    /// Fewer bits of a frame are lent.
    FrameLent,
    /// Fewer zeros than the timing table asks.
    Zeros,
    /// So many zeros that no output holds them.
    ManyZeros,
    /// The last order has too few words.
    Cut,
}

impl Flaw {
    pub const ALL: [Flaw; 9] = [
        Flaw::Nothing,
        Flaw::Kind,
        Flaw::Address,
        Flaw::Value,
        Flaw::FrameBits,
        Flaw::FrameLent,
        Flaw::Zeros,
        Flaw::ManyZeros,
        Flaw::Cut,
    ];

    /// Puts the flaw into one of the orders that can have it; if none can,
    /// nothing is wrong with them.
    pub fn put_into(self, lent: &mut Lent, orders: &[Order], random: &mut Random) {
        let whole = lent.orders.len() / at::WORDS;
        let fits = |number: &usize| *number < whole && self.fits(*number, orders);
        let able: Vec<usize> = (0..orders.len()).filter(fits).collect();
        if able.is_empty() {
            return;
        }
        let number = *any_of(&able, random);
        let command = &orders[number].command;
        let behind = lent.frames.len() as u64;
        let words = &mut lent.orders[number * at::WORDS..][..at::WORDS];
        match self {
            Flaw::Nothing => {}
            Flaw::Kind => words[at::KIND] = unknown_kind(random),
            Flaw::Address => words[at::ADDRESS] = too_large(words[at::ADDRESS], 4, random),
            Flaw::Value => {
                let (value, width) = command.value().unwrap_or_default();
                words[at::VALUE] = too_large(value, width, random);
            }
            Flaw::FrameBits => words[at::BITS] = other_count(command, random),
            Flaw::FrameLent => words[at::FRAME] = too_late(command, behind, random),
            Flaw::Zeros => words[at::ZEROS] = random.below(asked_ahead(orders, number)),
            Flaw::ManyZeros => words[at::ZEROS] = many_zeros(random),
            Flaw::Cut => {
                let fewer = 1 + random.below(at::WORDS as u64 - 1) as usize;
                lent.orders.truncate(lent.orders.len() - fewer);
            }
        }
    }

    fn fits(self, number: usize, orders: &[Order]) -> bool {
        let command = &orders[number].command;
        match self {
            Flaw::Nothing | Flaw::Kind | Flaw::ManyZeros => true,
            Flaw::Address => command.address().is_some(),
            Flaw::Value => command.value().is_some(),
            Flaw::FrameBits => command.frame().is_some(),
            Flaw::FrameLent => command.frame().is_some_and(|frame| !frame.is_empty()),
            Flaw::Zeros => asked_ahead(orders, number) > 0,
            Flaw::Cut => number + 1 == orders.len(),
        }
    }
}

fn any_of<'a, T>(list: &'a [T], random: &mut Random) -> &'a T {
    &list[random.below(list.len() as u64) as usize]
}

/// What the timing table asks ahead of an order of a list.
fn asked_ahead(orders: &[Order], number: usize) -> u64 {
    match number {
        0 => 0,
        _ => orders[number - 1]
            .command
            .zeros_ahead_of(&orders[number].command),
    }
}

/// Kinds of records that cannot be ordered, and ones that are known by their
/// low bits only.
fn unknown_kind(random: &mut Random) -> u64 {
    let kinds = [
        0x00, 0x02, 0x10, 0x13, 0x15, 0x19, 0x1B, 0x1F, 0x27, 0x2B, 0x2F, 0x30, 0xA0, 0xFF,
    ];
    let beyond = [0x101, 0x120, 1 << 32 | 0x20, 1 << 63 | 0x28, u64::MAX];
    match random.bit() {
        true => *any_of(&kinds, random),
        false => *any_of(&beyond, random),
    }
}

/// A number that does not have so few bits, often with the same low ones.
fn too_large(number: u64, bits: u32, random: &mut Random) -> u64 {
    let high = [bits, bits + 1, 31, 32, 63, bits + random.below(30) as u32];
    match random.below(8) {
        0 => 1 << bits,
        1 => u64::MAX,
        _ => number | 1 << *any_of(&high, random),
    }
}

fn frame_length(command: &Ordered) -> u64 {
    command.frame().unwrap_or_default().len() as u64
}

/// A first byte behind which too few are lent.
fn too_late(command: &Ordered, lent: u64, random: &mut Random) -> u64 {
    let needed = frame_length(command).div_ceil(8);
    let last = lent - needed;
    let places = [last + 1, lent, lent + 1, u64::MAX, needed.wrapping_neg()];
    *any_of(&places, random)
}

fn other_count(command: &Ordered, random: &mut Random) -> u64 {
    let count = frame_length(command);
    let counts = [
        count + 1,
        count + 8,
        count.wrapping_sub(1),
        count.wrapping_sub(8),
        count + (1 << 16),
        count + (1 << 32),
        count | 1 << 63,
        u64::MAX,
    ];
    *any_of(&counts, random)
}

/// About 2^48, 2^61 and 2^64, where a sum of places may wrap.
fn many_zeros(random: &mut Random) -> u64 {
    let near = random.below(80);
    match random.below(4) {
        0 => u64::MAX - near,
        1 => (1 << 48) - near,
        2 => (1 << 48) + near,
        _ => (1 << 61) - near,
    }
}
