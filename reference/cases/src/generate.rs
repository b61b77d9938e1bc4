//! Random streams of commands.

use crate::code::{self, BCR, CAL, ECR, FLIPPED_LV1, LV1_TAIL, SYNC};
use crate::{Random, Stream};

/// Where the three registers are that a reader looks into.
#[derive(Clone, Copy, Debug, PartialEq, Eq)]
pub struct Addresses {
    pub csr: u8,
    pub feen: u8,
    pub cnt: u8,
}

impl Addresses {
    /// Those of document 01's default plan.
    pub const DEFAULT: Addresses = Addresses {
        csr: 0,
        feen: 2,
        cnt: 5,
    };
}

/// Whole commands by the default plan.
pub fn commands(random: &mut Random, count: usize) -> Stream {
    commands_at(Addresses::DEFAULT, random, count)
}

/// The same, where now and then an LV1 has a bit hit.
pub fn flipped_commands(random: &mut Random, count: usize) -> Stream {
    flipped_commands_at(Addresses::DEFAULT, random, count)
}

/// Whole commands with random zeros between them. It follows CNT as the
/// commands write it at its address, so that variable fields end where the
/// next command begins. Most CNT are small, to keep frames short.
pub fn commands_at(at: Addresses, random: &mut Random, count: usize) -> Stream {
    let mut stream = Stream::new().en_data_take();
    let mut cnt = 0;
    for _ in 0..count {
        stream = stream.zeros(gap(random));
        stream = command(stream, at, random, &mut cnt);
    }
    stream
}

/// The same, where now and then an LV1 has a bit hit.
pub fn flipped_commands_at(at: Addresses, random: &mut Random, count: usize) -> Stream {
    let mut stream = Stream::new().en_data_take();
    let mut cnt = 0;
    for _ in 0..count {
        stream = stream.zeros(gap(random));
        stream = if random.one_in(12) {
            stream.pattern(flipped_lv1(random))
        } else {
            command(stream, at, random, &mut cnt)
        };
    }
    stream
}

/// Whole commands by the default plan, crowded together.
pub fn crowded_commands(random: &mut Random, count: usize) -> Stream {
    crowded_commands_at(Addresses::DEFAULT, random, count)
}

/// The same by any plan (document 02, F-5): few zeros between commands, and
/// many of those that ask for zeros after themselves. Frames go by a CNT that
/// is written just ahead.
pub fn crowded_commands_at(at: Addresses, random: &mut Random, count: usize) -> Stream {
    let mut stream = Stream::new().en_data_take();
    let mut cnt = 0;
    for _ in 0..count {
        stream = stream.zeros(few_zeros(random));
        stream = match random.below(16) {
            0..=5 => stream.fast([BCR, BCR, ECR, SYNC, SYNC, CAL][random.below(6) as usize]),
            6 | 7 => stream.lv1(),
            8 => stream.pattern(flipped_lv1(random)),
            9 => stream.pattern(LV1_TAIL),
            10 => stream.en_data_take(),
            11 => {
                cnt = random.word() as u16
                    & [0x001F, 0x0018, 0x0003, 0x0000][random.below(4) as usize];
                let stream = stream.wr_register(at.cnt, cnt).zeros(few_zeros(random));
                any_frame(stream, random, cnt)
            }
            12 if random.one_in(4) => {
                cnt = 0;
                stream.reset_mcc()
            }
            _ => command(stream, at, random, &mut cnt),
        };
    }
    stream
}

/// Often none, and no more than two more than the timing table ever asks.
fn few_zeros(random: &mut Random) -> usize {
    match random.below(3) {
        0 => 0,
        _ => random.below(7) as usize,
    }
}

/// A frame of each kind in turn, by the present CNT.
fn any_frame(stream: Stream, random: &mut Random, cnt: u16) -> Stream {
    match random.below(3) {
        0 => front_end(stream, code::WR_FRONT_END, random, cnt),
        1 => front_end(stream, code::RD_FRONT_END, random, cnt),
        _ => {
            let frame = bits(random, code::receiver_bits(cnt));
            stream.wr_receiver(&frame)
        }
    }
}

/// How the cycles of a front-end group differ.
#[derive(Clone, Copy, Debug, PartialEq, Eq)]
pub enum Noise {
    /// The first cycle still has the bit before.
    Late,
    /// One cycle in so many is wrong.
    Cycles(u64),
    /// Any eight cycles.
    Any,
}

/// Whole commands by the default plan, with noisy front-end frames.
pub fn noisy_commands(noise: Noise, random: &mut Random, count: usize) -> Stream {
    noisy_commands_at(Addresses::DEFAULT, noise, random, count)
}

/// The same by any plan. One in four is a front-end frame with noise, by a CNT
/// of its own.
pub fn noisy_commands_at(at: Addresses, noise: Noise, random: &mut Random, count: usize) -> Stream {
    let mut stream = Stream::new().en_data_take();
    let mut cnt = 0;
    for _ in 0..count {
        stream = stream.zeros(gap(random));
        stream = if random.one_in(4) {
            cnt = random.word() as u16 & [0x003F, 0x003F, 0x0007, 0x01FF][random.below(4) as usize];
            let field3 = [code::WR_FRONT_END, code::RD_FRONT_END][random.below(2) as usize];
            let groups = noisy_groups(noise, random, code::front_end_bits(cnt));
            stream.wr_register(at.cnt, cnt).groups(field3, &groups)
        } else {
            command(stream, at, random, &mut cnt)
        };
    }
    stream
}

/// The groups of so many front-end bits, the first cycle highest.
pub fn noisy_groups(noise: Noise, random: &mut Random, count: u32) -> Vec<u8> {
    let steady = |bit: bool| if bit { 0xFF } else { 0x00 };
    match noise {
        Noise::Late => late_groups(&bits(random, count)),
        Noise::Cycles(n) => {
            let wrong = |random: &mut Random| {
                (0..8).fold(0, |wrong, _| wrong << 1 | u8::from(random.one_in(n)))
            };
            let bits = bits(random, count).into_iter();
            bits.map(|bit| steady(bit) ^ wrong(random)).collect()
        }
        Noise::Any => (0..count).map(|_| random.word() as u8).collect(),
    }
}

/// The groups of a line that follows its driver a cycle late: the first cycle
/// of each has the bit before, and 0 ahead of the first bit.
pub fn late_groups(bits: &[bool]) -> Vec<u8> {
    let before = [false].into_iter().chain(bits.iter().copied());
    let group = |(before, &bit): (bool, &bool)| {
        let (first, rest) = (u8::from(before) * 0x80, u8::from(bit) * 0x7F);
        first | rest
    };
    before.zip(bits).map(group).collect()
}

fn command(stream: Stream, at: Addresses, random: &mut Random, cnt: &mut u16) -> Stream {
    match random.below(24) {
        0..=7 => stream.lv1(),
        8..=12 => stream.fast([BCR, ECR, CAL, SYNC][random.below(4) as usize]),
        13 => stream.fast(bad_body(random)),
        14..=16 => stream.en_data_take(),
        _ => slow_command(stream, at, random, cnt),
    }
}

/// So many bits: whole commands of every kind but the frames, at which a call
/// would stop, with random zeros between them and zeros at the end.
pub fn without_frames(random: &mut Random, count: usize) -> Stream {
    // A gap and a command have fewer bits.
    const MOST: usize = 80;
    let mut stream = Stream::new();
    while stream.bits.len() + MOST <= count {
        stream = stream.zeros(gap(random));
        stream = match random.below(24) {
            0..=7 => stream.lv1(),
            8..=11 => stream.fast([BCR, ECR, CAL, SYNC][random.below(4) as usize]),
            12 => stream.fast(bad_body(random)),
            13 | 14 => stream.pattern(flipped_lv1(random)),
            15..=17 => stream.en_data_take(),
            _ => slow_without_frame(stream, random),
        };
    }
    let rest = count - stream.bits.len();
    stream.zeros(rest)
}

/// An LV1 with one bit hit, or the last four bits of one.
fn flipped_lv1(random: &mut Random) -> &'static str {
    let choice = random.below(6) as usize;
    FLIPPED_LV1.get(choice).unwrap_or(&LV1_TAIL)
}

fn slow_without_frame(stream: Stream, random: &mut Random) -> Stream {
    let nibble = random.below(16) as u8;
    match random.below(8) {
        0 | 1 => stream.wr_register(nibble, random.word() as u16),
        2 => stream.rd_register(nibble),
        3 | 4 => stream.wr_fifo(random.word() as u32),
        5 => stream.rd_fifo(nibble),
        6 => stream.reset_fe(nibble),
        _ if random.one_in(8) => stream.reset_mcc(),
        // A bad Slow.
        _ => stream.slow(nibble | 11, nibble),
    }
}

/// A body that is neither a Fast nor the Slow header's.
fn bad_body(random: &mut Random) -> u8 {
    [0, 3, 5, 6, 7, 9, 10, 12, 13, 14, 15][random.below(11) as usize]
}

fn gap(random: &mut Random) -> usize {
    match random.below(3) {
        0 => 0,
        1 => random.below(6) as usize,
        _ => random.below(30) as usize,
    }
}

fn slow_command(stream: Stream, at: Addresses, random: &mut Random, cnt: &mut u16) -> Stream {
    let nibble = random.below(16) as u8;
    match random.below(20) {
        0..=2 => {
            let value = small(random);
            if nibble == at.cnt {
                *cnt = value;
            }
            stream.wr_register(nibble, value)
        }
        3 | 4 => stream.rd_register(nibble),
        5..=7 => stream.wr_fifo(random.word() as u32),
        8 | 9 => stream.rd_fifo(nibble),
        10 => stream.wr_register(at.feen, random.word() as u16),
        11 => stream.wr_register(at.csr, random.word() as u16),
        12..=14 => {
            *cnt = small(random);
            stream.wr_register(at.cnt, *cnt)
        }
        15 => front_end(stream, code::WR_FRONT_END, random, *cnt),
        16 => front_end(stream, code::RD_FRONT_END, random, *cnt),
        17 => {
            let frame = bits(random, code::receiver_bits(*cnt));
            stream.wr_receiver(&frame)
        }
        18 => stream.reset_fe(nibble),
        _ if random.one_in(4) => {
            *cnt = 0;
            stream.reset_mcc()
        }
        // A bad Slow.
        _ => stream.slow(nibble | 11, nibble),
    }
}

/// A front-end frame, with an unsteady group now and then.
fn front_end(stream: Stream, field3: u8, random: &mut Random, cnt: u16) -> Stream {
    let frame = bits(random, code::front_end_bits(cnt));
    let mut stream = stream.front_end(field3, &frame);
    if !frame.is_empty() && random.one_in(3) {
        let last = stream.bits.len() - 1 - random.below(frame.len() as u64 * 8) as usize;
        stream.bits[last] = !stream.bits[last];
    }
    stream
}

/// Seldom a large number, as CNT makes frames of it.
fn small(random: &mut Random) -> u16 {
    let number = random.word() as u16;
    match random.below(16) {
        0 => number & 0x01FF,
        1 => number & 0xE007,
        _ => number & 0x003F,
    }
}

pub fn bits(random: &mut Random, count: u32) -> Vec<bool> {
    (0..count).map(|_| random.bit()).collect()
}

/// Inverts each bit with a chance of one in `n`.
pub fn flip_some(stream: &mut Stream, random: &mut Random, n: u64) {
    for bit in &mut stream.bits {
        *bit ^= random.one_in(n);
    }
}
