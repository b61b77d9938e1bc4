//! Reading a reply (document 02, F-12): headers at each place, every group of
//! eight cycles, replies cut at each cycle, every limit of the counts, buffers
//! and ranges, the order of refusals, and random calls.

use super::call::{Call, ReadReply};
use super::checker::Checker;
use super::layout::{
    reply, BUFFER_TOO_SMALL, CUT_SHORT, INPUT_BYTES, NO_HEADER, REPLY_DATA_BITS, WHOLE,
    WRONG_BIT_COUNT, WRONG_RANGE,
};
use super::prefilled;
use cases::{Random, Stream};
use std::collections::BTreeMap;
use std::io;

/// The longest strings of which all are tried, and their first bits.
const SHORT: u32 = 10;
const FIRST_BITS: [u64; 4] = [0, 1, 6, 13];

/// Random calls.
const CALLS: u64 = 24_000;

/// The bits of the longest input.
const BITS: u64 = 8 * INPUT_BYTES as u64;

const SEED: u64 = 0x1F4C_EF12_0000;

const HEADER: &str = "11101";
const HEADER_BITS: usize = HEADER.len();

/// Counts that number 18 refuses.
const WRONG_COUNTS: [u64; 8] = [
    0,
    REPLY_DATA_BITS + 1,
    REPLY_DATA_BITS + 2,
    1 << 16 | 1,
    1 << 32 | 1,
    1 << 61,
    1 << 63 | 1,
    u64::MAX,
];

pub fn check(checker: &mut Checker) -> io::Result<()> {
    let mut cases = Cases {
        checker,
        random: Random::new(SEED),
    };
    cases.every_short_one()?;
    cases.headers()?;
    cases.every_group()?;
    cases.cuts()?;
    cases.counts()?;
    cases.buffers()?;
    cases.ranges()?;
    cases.lengths()?;
    cases.precedence()?;
    cases.large()?;
    random_calls(checker)
}

/// Whether eight cycles, the first highest, make a 1, as F-4 says it.
pub fn voted(group: u8) -> bool {
    let ones = (0..8).filter(|place| group >> place & 1 == 1).count();
    ones >= 5 || (ones == 4 && group >= 128)
}

/// The bytes that so many bits fill.
pub fn bytes_of(bits: u64) -> usize {
    bits.div_ceil(8) as usize
}

fn header() -> Stream {
    Stream::new().pattern(HEADER)
}

/// A header and groups behind it.
fn replied(groups: &[u8]) -> Stream {
    groups
        .iter()
        .fold(header(), |stream, &group| stream.number(group.into(), 8))
}

/// Groups of so many bits, of every count of ones.
fn groups(random: &mut Random, bits: u64) -> Vec<u8> {
    prefilled::bytes(random, bits as usize)
}

/// What is said of such groups behind a header.
fn said(groups: &[u8], expected: u64) -> u64 {
    match groups.len() as u64 {
        complete if complete >= expected => reply(WHOLE, expected),
        complete => reply(CUT_SHORT, complete),
    }
}

/// Bits at a first bit of an input, with other ones ahead of them and behind.
fn lent(bits: &[bool], first: u64, after: u64, random: &mut Random) -> Vec<u8> {
    let mut any = |count: u64| -> Vec<bool> { (0..count).map(|_| random.bit()).collect() };
    let stream = Stream::new().raw(&any(first)).raw(bits).raw(&any(after));
    stream.bytes()
}

/// Cases that are written down, whose answers are too.
struct Cases<'a> {
    checker: &'a mut Checker,
    random: Random,
}

impl Cases<'_> {
    /// A call that is answered so.
    fn answered(&mut self, name: String, answer: u64, call: ReadReply) -> io::Result<()> {
        self.checker.check_number(name, answer, &Call::Reply(call))
    }

    /// A call whose complete bits are the votes of these groups. That the
    /// separate reader leaves them in the buffer, and all else as it was, is a
    /// check of its own.
    fn read(
        &mut self,
        name: String,
        answer: u64,
        groups: &[u8],
        call: ReadReply,
    ) -> io::Result<()> {
        let complete = (answer >> 16) as usize;
        let bits: Vec<bool> = groups[..complete].iter().map(|&g| voted(g)).collect();
        let mut filled = Stream::new().raw(&bits).bytes();
        filled.extend_from_slice(&call.buffer[filled.len()..]);
        let call = Call::Reply(call);
        let expected = self.checker.check(name.clone(), &call)?;
        let Call::Reply(after) = &expected.after else {
            unreachable!("a call stays what it is");
        };
        let fault = if expected.answer != answer {
            let given = expected.answer;
            Some(format!(
                "meant for {answer:X}, the separate reader answers {given:X}"
            ))
        } else if after.buffer != filled {
            Some("the separate reader leaves another buffer".to_string())
        } else {
            None
        };
        self.checker.report(format!("{name}, its bits"), fault)
    }

    /// The whole of a stream, at a first bit and with others about it, in a
    /// buffer of just enough bytes or of some more.
    fn placed(&mut self, stream: &Stream, first: u64, expected: u64) -> ReadReply {
        let after = self.random.below(2) * 11;
        let input = lent(&stream.bits, first, after, &mut self.random);
        let length = bytes_of(expected) + self.random.below(2) as usize * 3;
        ReadReply {
            input,
            first,
            count: stream.bits.len() as u64,
            expected,
            buffer: prefilled::bytes(&mut self.random, length),
        }
    }

    fn every_short_one(&mut self) -> io::Result<()> {
        for length in 0..=SHORT {
            for number in 0..1 << length {
                let stream = Stream::new().number(number, length);
                for first in FIRST_BITS {
                    let name = format!("reply in {number:b} of {length} bits from {first}");
                    let call = self.placed(&stream, first, 1);
                    self.checker.check(name, &Call::Reply(call))?;
                }
            }
        }
        Ok(())
    }

    /// At each bit of a byte; behind ones, and behind headers that are hit;
    /// with another that begins within it; and in the data.
    fn headers(&mut self) -> io::Result<()> {
        let hit = [
            "01101", "10101", "11001", "11111", "11100", "1110", "1111", "0",
        ];
        for pattern in ["", "1", "11", "0111", "11110000"].iter().chain(&hit) {
            for zeros in 0..=17 {
                let ahead = Stream::new().pattern(pattern).zeros(zeros);
                let with = ahead.clone().raw(&header().bits).bits;
                let early = with[..with.len() - 1]
                    .windows(HEADER_BITS)
                    .any(|five| five == header().bits);
                if early {
                    continue;
                }
                for first in 0..8 {
                    let name = format!("reply behind {pattern} and {zeros} zeros from {first}");
                    let groups = groups(&mut self.random, 3);
                    let stream = ahead.clone().raw(&replied(&groups).bits);
                    let call = self.placed(&stream, first, 3);
                    self.read(name.clone(), said(&groups, 3), &groups, call)?;
                    let call = self.placed(&ahead, first, 3);
                    self.answered(format!("{name}, without it"), reply(NO_HEADER, 0), call)?;
                }
            }
        }
        // Behind the first header the second's last bits are data, and so is
        // all of the third.
        for number in 0..=255_u8 {
            let name = format!("reply with headers within it, {number}");
            let groups = [
                0b1101_0000 | number >> 4,
                number,
                0b1110_1000 | (number % 8),
            ];
            let call = self.placed(&replied(&groups), u64::from(number % 11), 3);
            self.read(name, said(&groups, 3), &groups, call)?;
        }
        Ok(())
    }

    /// At each place of a byte and between others.
    fn every_group(&mut self) -> io::Result<()> {
        for group in 0..=255 {
            for first in 0..8 {
                let name = format!("reply with {group:08b} from {first}");
                let groups = [0xFF, group, 0x00, !group, group, group];
                let call = self.placed(&replied(&groups), first, 6);
                self.read(name, said(&groups, 6), &groups, call)?;
            }
        }
        Ok(())
    }

    /// At each cycle, with fewer bits than are expected, as many, and more.
    fn cuts(&mut self) -> io::Result<()> {
        for (bits, first) in [(1, 3), (2, 0), (9, 5), (24, 0), (33, 6)] {
            let groups = groups(&mut self.random, bits);
            let whole = Stream::new().zeros(4).raw(&replied(&groups).bits);
            for count in 0..=whole.bits.len() {
                let mut stream = whole.clone();
                stream.bits.truncate(count);
                for expected in [1, bits.saturating_sub(1).max(1), bits, bits + 1, bits + 9] {
                    let name = format!("reply of {bits} bits cut at {count}, {expected} expected");
                    let call = self.placed(&stream, first, expected);
                    match count.checked_sub(4 + HEADER_BITS) {
                        None => self.answered(name, reply(NO_HEADER, 0), call)?,
                        Some(cycles) => {
                            let groups = &groups[..cycles / 8];
                            self.read(name, said(groups, expected), groups, call)?;
                        }
                    }
                }
            }
        }
        Ok(())
    }

    /// Each count about a byte's end, and about the limits.
    fn counts(&mut self) -> io::Result<()> {
        let near = [8_176, 8_177, 8_183, 8_184, 8_185, 8_189, 8_190, 8_191];
        let some = [255, 256, 257, 1_023, 1_024, 1_025, 4_095, 4_096, 4_097];
        for bits in (1..=40).chain(some).chain(near) {
            let groups = groups(&mut self.random, bits);
            let sent = replied(&groups);
            for expected in [bits, (bits + 1).min(REPLY_DATA_BITS), bits.div_ceil(2)] {
                let name = format!("reply of {bits} bits, {expected} expected");
                let first = self.random.below(9);
                let call = self.placed(&sent, first, expected);
                self.read(name, said(&groups, expected), &groups, call)?;
            }
        }
        for expected in WRONG_COUNTS {
            for length in [0, 1, 1_023, 1_024, 1_025, 8_192] {
                let name = format!("reply of {expected} bits, {length} bytes");
                let call = ReadReply {
                    input: replied(&[0xFF; 20]).bytes(),
                    first: 0,
                    count: 160,
                    expected,
                    buffer: prefilled::bytes(&mut self.random, length),
                };
                self.answered(name, WRONG_BIT_COUNT, call)?;
            }
        }
        Ok(())
    }

    /// Of each length about the one that is needed, for replies that are whole,
    /// cut short and without a header.
    fn buffers(&mut self) -> io::Result<()> {
        for expected in [1, 7, 8, 9, 16, 17, 100, 8_184, 8_185, 8_191] {
            let needed = bytes_of(expected);
            let groups = groups(&mut self.random, expected);
            let half = replied(&groups[..groups.len() / 2]);
            let none = Stream::new().zeros(100);
            let lengths = [0, 1, needed - 1, needed, needed + 1, needed + 40, 8_192];
            for length in lengths {
                for (stream, groups, answer) in [
                    (replied(&groups), &groups[..], said(&groups, expected)),
                    (
                        half.clone(),
                        &groups[..groups.len() / 2],
                        said(&groups[..groups.len() / 2], expected),
                    ),
                    (none.clone(), &[], reply(NO_HEADER, 0)),
                ] {
                    let name = format!("reply of {expected} bits, {length} bytes of a buffer");
                    let buffer = prefilled::bytes(&mut self.random, length);
                    let call = ReadReply {
                        buffer,
                        ..self.placed(&stream, 2, expected)
                    };
                    match length < needed {
                        true => self.answered(name, BUFFER_TOO_SMALL, call)?,
                        false => self.read(name, answer, groups, call)?,
                    }
                }
            }
        }
        Ok(())
    }

    /// A call that is meant for number 5, or for none.
    fn range(&mut self, input: &[u8], first: u64, count: u64) -> io::Result<()> {
        let length = input.len();
        let end = u128::from(first) + u128::from(count);
        let fits = length <= INPUT_BYTES && end <= 8 * length as u128;
        let name = format!("reply, {count} bits from {first} of {length} bytes");
        let call = ReadReply {
            input: input.to_vec(),
            first,
            count,
            expected: 2,
            buffer: prefilled::bytes(&mut self.random, 2),
        };
        if !fits {
            return self.answered(name, WRONG_RANGE, call);
        }
        let expected = self.checker.check(name.clone(), &Call::Reply(call))?;
        let fault =
            (expected.answer == WRONG_RANGE).then_some("the separate reader finds number 5");
        let fault = fault.map(str::to_string);
        self.checker.report(format!("{name}, its range"), fault)
    }

    /// Ranges that end at the last bit, one past it and beyond all numbers.
    fn ranges(&mut self) -> io::Result<()> {
        for length in [0_usize, 1, 2, 40] {
            let bits = length as u64 * 8;
            let headers = [0xE8, 0x74].repeat(length);
            let some = prefilled::bytes(&mut self.random, length);
            for input in [vec![0; length], headers[..length].to_vec(), some] {
                let middle = bits / 2 + bits % 3;
                let firsts = [0, 1, middle, bits, bits + 1, bits + 8, 1 << 61, 1 << 63];
                for first in firsts.into_iter().chain([u64::MAX - 1, u64::MAX]) {
                    let rest = bits.saturating_sub(first);
                    let wraps = first.wrapping_neg();
                    let counts = [0, 1, rest, rest + 1, wraps, wraps.wrapping_add(bits)];
                    for count in counts.into_iter().chain([1 << 61, 1 << 63, u64::MAX]) {
                        self.range(&input, first, count)?;
                    }
                }
            }
        }
        Ok(())
    }

    /// Inputs about the greatest length, and about the one of document 01.
    fn lengths(&mut self) -> io::Result<()> {
        let long = [INPUT_BYTES - 1, INPUT_BYTES, INPUT_BYTES + 1];
        for length in [65_535, 65_536, 65_537].into_iter().chain(long) {
            let bits = length as u64 * 8;
            // A header is its last five bits.
            let mut input = vec![0; length];
            input[length - 1] = 0b0001_1101;
            for (first, count) in [
                (0, 0),
                (0, bits),
                (1, bits - 1),
                (1, bits),
                (0, bits + 1),
                (bits - 5, 5),
                (bits, 0),
                (bits, 1),
                (bits + 1, 0),
                (bits, bits.wrapping_neg()),
                (u64::MAX, 1),
                (u64::MAX - 7, bits + 8),
            ] {
                self.range(&input, first, count)?;
            }
        }
        Ok(())
    }

    /// Number 18 goes ahead of 19, and 19 ahead of 5.
    fn precedence(&mut self) -> io::Result<()> {
        let input = replied(&[0xFF, 0x00, 0xFF]).bytes();
        let bits = 8 * input.len() as u64;
        let fit_ranges = [(0, bits), (3, 0), (bits, 0)];
        let wrong_ranges = [(0, bits + 1), (bits + 1, 0), (u64::MAX, u64::MAX)];
        let ranges = fit_ranges.map(|range| (range, true)).into_iter();
        for ((first, count), fits) in ranges.chain(wrong_ranges.map(|range| (range, false))) {
            let counts = [1, 8, 9, 16, 17, REPLY_DATA_BITS].into_iter();
            for expected in counts.chain(WRONG_COUNTS) {
                for length in [0, 1, 2, 1_023, 1_024] {
                    let name = format!("reply of {expected} bits, {length} bytes, {first} {count}");
                    let call = ReadReply {
                        input: input.clone(),
                        first,
                        count,
                        expected,
                        buffer: prefilled::bytes(&mut self.random, length),
                    };
                    let number = if WRONG_COUNTS.contains(&expected) {
                        WRONG_BIT_COUNT
                    } else if length < bytes_of(expected) {
                        BUFFER_TOO_SMALL
                    } else if !fits {
                        WRONG_RANGE
                    } else {
                        self.checker.check(name, &Call::Reply(call))?;
                        continue;
                    };
                    self.answered(name, number, call)?;
                }
            }
        }
        Ok(())
    }

    /// A mebibyte with the longest reply at its end, cut short by a cycle, with
    /// a header at its end, and without one.
    fn large(&mut self) -> io::Result<()> {
        let groups = groups(&mut self.random, REPLY_DATA_BITS);
        let sent = replied(&groups);
        let ahead = BITS as usize - sent.bits.len();
        let call = |stream: &Stream, first, expected| ReadReply {
            input: stream.bytes(),
            first,
            count: BITS - first,
            expected,
            buffer: vec![0x5A; 1_030],
        };
        for bit in [false, true] {
            let line = vec![bit; ahead];
            // With ones ahead the header is the last of them.
            let whole = Stream::new().raw(&line).raw(&sent.bits);
            let name = format!("large reply behind {bit}");
            for first in [0, 5, ahead as u64] {
                let call = call(&whole, first, REPLY_DATA_BITS);
                let answer = reply(WHOLE, REPLY_DATA_BITS);
                self.read(format!("{name} from {first}"), answer, &groups, call)?;
            }
            let mut cut = call(&whole, 0, REPLY_DATA_BITS);
            cut.count -= 1;
            let answer = reply(CUT_SHORT, REPLY_DATA_BITS - 1);
            self.read(format!("{name}, cut"), answer, &groups, cut)?;
            let late = vec![bit; BITS as usize - HEADER_BITS];
            let late = Stream::new().raw(&late).raw(&header().bits);
            let answer = reply(CUT_SHORT, 0);
            self.read(
                format!("{name}, its header"),
                answer,
                &[],
                call(&late, 0, 1),
            )?;
            let mut none = call(&late, 0, 1);
            none.count -= 1;
            self.answered(format!("{name}, none"), reply(NO_HEADER, 0), none)?;
            let mut longer = call(&whole, 0, REPLY_DATA_BITS);
            longer.input.push(0);
            self.answered(format!("{name}, a byte more"), WRONG_RANGE, longer)?;
        }
        // At the start, with a mebibyte of noise behind it.
        let noise = prefilled::bytes(&mut self.random, INPUT_BYTES);
        let mut early = sent.bytes();
        early.pop();
        early.extend_from_slice(&noise[early.len()..]);
        let call = ReadReply {
            input: early,
            first: 0,
            count: BITS,
            expected: REPLY_DATA_BITS - 1,
            buffer: prefilled::bytes(&mut self.random, 1_024),
        };
        let answer = reply(WHOLE, REPLY_DATA_BITS - 1);
        self.read(
            "large reply at the start".to_string(),
            answer,
            &groups,
            call,
        )
    }
}

/// A line that may hold a reply: few bits or many, with headers that are hit,
/// cycles that are hit, ties, or noise alone; and its count of data bits.
fn random_line(random: &mut Random) -> (Stream, u64) {
    let ahead: Vec<bool> = match random.below(4) {
        0 => Vec::new(),
        1 => vec![random.bit(); random.below(30) as usize],
        // Many ones, so that headers overlap.
        2 => (0..random.below(30)).map(|_| !random.one_in(4)).collect(),
        _ => (0..random.below(30)).map(|_| random.one_in(3)).collect(),
    };
    let mut header = header();
    if random.one_in(6) {
        let place = random.below(HEADER_BITS as u64) as usize;
        header.bits[place] = !header.bits[place];
    }
    let bits = match random.below(128) {
        0 => 1 + random.below(REPLY_DATA_BITS),
        1..=12 => 1 + random.below(300),
        _ => random.below(30),
    };
    let mut stream = Stream::new().raw(&ahead).raw(&header.bits);
    let kind = random.below(4);
    for _ in 0..bits {
        let steady = if random.bit() { 0xFF } else { 0x00 };
        let group = match kind {
            0 => steady,
            1 => random.word() as u8,
            // Hit in four cycles at most: a tie, or a vote that is steady.
            _ => (0..4).fold(steady, |group, _| group ^ 1 << random.below(8)),
        };
        stream = stream.number(group.into(), 8);
    }
    if random.one_in(16) {
        stream.bits.fill(random.bit());
    }
    (stream, bits)
}

/// A count that has to do with the line's, or any, or one that is refused.
fn random_count(random: &mut Random, bits: u64) -> u64 {
    let count = match random.below(16) {
        0 => return WRONG_COUNTS[random.below(WRONG_COUNTS.len() as u64) as usize],
        1 => random.word() >> random.below(64),
        2 => 1 + random.below(REPLY_DATA_BITS),
        3 => [1, REPLY_DATA_BITS][random.below(2) as usize],
        4 | 5 => bits + 1 + random.below(20),
        6 | 7 => 1 + random.below(bits + 1),
        _ => bits,
    };
    count.max(1)
}

/// Just enough for so many bits, more, or too few.
fn random_length(random: &mut Random, bits: u64) -> usize {
    let needed = bytes_of(bits.min(REPLY_DATA_BITS + 9)) as u64;
    let length = match random.below(12) {
        0 => random.below(needed),
        1 => needed - 1,
        2..=5 => needed + 1 + random.below(40),
        _ => needed,
    };
    length as usize
}

/// A random call, fit or with a flaw or two.
pub fn random_call(random: &mut Random) -> ReadReply {
    let (mut stream, bits) = random_line(random);
    if random.one_in(3) {
        // Cut at any cycle.
        let count = random.below(stream.bits.len() as u64 + 1) as usize;
        stream.bits.truncate(count);
    }
    let expected = random_count(random, bits);
    let length = random_length(random, expected.max(1));
    let first = random.below(2) * random.below(30);
    let after = random.below(2) * random.below(30);
    let mut call = ReadReply {
        input: lent(&stream.bits, first, after, random),
        first,
        count: stream.bits.len() as u64,
        expected,
        buffer: prefilled::bytes(random, length),
    };
    let end = 8 * call.input.len() as u64;
    match random.below(40) {
        // Past the end by some bits, or beyond all numbers.
        0 | 1 => call.count = end - first + 1 + random.below(9),
        2 => call.first = random.word() | 1 << 40,
        3 => call.count = random.word() | 1 << 40,
        4 => (call.first, call.count) = (first.wrapping_sub(8), end + 8),
        _ => {}
    }
    call
}

fn random_calls(checker: &mut Checker) -> io::Result<()> {
    let mut counts = BTreeMap::new();
    for number in 0..CALLS {
        let mut random = Random::new(SEED + 0x1_0000 + number);
        let call = random_call(&mut random);
        let expected = checker.check(format!("reply {number}"), &Call::Reply(call))?;
        *counts.entry(expected.answer & 0xFFFF).or_insert(0) += 1;
    }
    // That each is among them many times is a check of its own.
    let said = [WHOLE, NO_HEADER, CUT_SHORT].map(|said| reply(said, 0));
    let refused = [WRONG_BIT_COUNT, BUFFER_TOO_SMALL, WRONG_RANGE];
    for answer in said.into_iter().chain(refused) {
        let count: u64 = counts.get(&answer).copied().unwrap_or(0);
        let fault = (count < CALLS / 30).then(|| format!("only {count} calls are answered so"));
        checker.report(format!("replies answered with {answer:X}"), fault)?;
    }
    Ok(())
}
