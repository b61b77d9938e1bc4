//! The check of a finished stream (document 02, F-8): every short one at
//! several first bits, each range and length just inside and just outside,
//! random ones with each refusal, and ones of a mebibyte.

use super::call::Call;
use super::checker::Checker;
use super::layout::{
    verdict, CUT_PATTERN, INPUT_BYTES, OK, PATTERN_TOO_CLOSE, UNKNOWN_PATTERN, WRONG_RANGE,
};
use super::prefilled;
use cases::pulses::{pulses, Flaw, Pulses};
use cases::spaced::ALL;
use cases::{Random, Stream};
use std::collections::BTreeMap;
use std::io;

/// The longest strings of which all are tried, and their first bits.
const SHORT: usize = 12;
const FIRST_BITS: [u64; 5] = [0, 1, 4, 7, 13];

/// Random calls.
const CALLS: u64 = 21_000;

/// The bits of the longest input.
const BITS: usize = 8 * INPUT_BYTES;

const SEED: u64 = 0x1F4C_EF08_0000;

pub fn check(checker: &mut Checker) -> io::Result<()> {
    every_short_one(checker)?;
    ranges(checker)?;
    lengths(checker)?;
    random_calls(checker)?;
    large(checker)
}

/// Bits at a first bit of an input, with other ones ahead of them and behind.
fn lent(bits: &[bool], first: u64, after: u64, random: &mut Random) -> Call {
    let mut any = |count: u64| -> Vec<bool> { (0..count).map(|_| random.bit()).collect() };
    let stream = Stream::new().raw(&any(first)).raw(bits).raw(&any(after));
    Call::Accept {
        input: stream.bytes(),
        first,
        count: bits.len() as u64,
    }
}

fn every_short_one(checker: &mut Checker) -> io::Result<()> {
    let mut random = Random::new(SEED + 1);
    for length in 0..=SHORT as u32 {
        for number in 0..1 << length {
            let bits = Stream::new().number(number, length).bits;
            for first in FIRST_BITS {
                let name = format!("stream {number:b} of {length} bits from {first}");
                // Its last bit is the input's, but for zeros, or others follow.
                let after = random.below(2) * 11;
                let call = lent(&bits, first, after, &mut random);
                checker.check(name, &call)?;
            }
        }
    }
    Ok(())
}

/// A call that is meant for number 5, or for none of the range's.
fn range(checker: &mut Checker, input: &[u8], first: u64, count: u64) -> io::Result<()> {
    let length = input.len();
    let end = u128::from(first) + u128::from(count);
    let fits = length <= INPUT_BYTES && end <= 8 * length as u128;
    let name = format!("stream, {count} bits from {first} of {length} bytes");
    let call = Call::Accept {
        input: input.to_vec(),
        first,
        count,
    };
    if !fits {
        // It names bit 0.
        return checker.check_number(name, verdict(WRONG_RANGE, 0), &call);
    }
    let expected = checker.check(name.clone(), &call)?;
    let fault = (expected.answer == WRONG_RANGE).then_some("the separate reader finds number 5");
    checker.report(format!("{name}, its range"), fault.map(str::to_string))
}

/// Ranges that end at the last bit, one past it and beyond all numbers.
fn ranges(checker: &mut Checker) -> io::Result<()> {
    let mut random = Random::new(SEED + 2);
    for length in [0_usize, 1, 2, 40] {
        let bits = length as u64 * 8;
        let triggers = [0xE8, 0x74].repeat(length);
        let some = prefilled::bytes(&mut random, length);
        for input in [vec![0; length], triggers[..length].to_vec(), some] {
            let middle = bits / 2 + bits % 3;
            let firsts = [0, 1, middle, bits, bits + 1, bits + 8, 1 << 61, 1 << 63];
            for first in firsts.into_iter().chain([u64::MAX - 1, u64::MAX]) {
                let rest = bits.saturating_sub(first);
                let wraps = first.wrapping_neg();
                let counts = [0, 1, rest, rest + 1, wraps, wraps.wrapping_add(bits)];
                for count in counts.into_iter().chain([1 << 61, 1 << 63, u64::MAX]) {
                    range(checker, &input, first, count)?;
                }
            }
        }
    }
    Ok(())
}

/// Inputs about the greatest length, and about the one of document 01.
fn lengths(checker: &mut Checker) -> io::Result<()> {
    let long = [
        INPUT_BYTES - 1,
        INPUT_BYTES,
        INPUT_BYTES + 1,
        INPUT_BYTES + 2,
    ];
    for length in [65_535, 65_536, 65_537].into_iter().chain(long) {
        let bits = length as u64 * 8;
        let zeros = vec![0; length];
        // Its first bit is one, and its last.
        let mut ends = zeros.clone();
        (ends[0], ends[length - 1]) = (0x80, 0x01);
        for (first, count) in [
            (0, 0),
            (0, 9),
            (0, bits),
            (1, bits - 1),
            (1, bits),
            (0, bits + 1),
            (bits - 1, 1),
            (bits, 0),
            (bits, 1),
            (bits + 1, 0),
            (bits, bits.wrapping_neg()),
            (u64::MAX, 1),
            (u64::MAX - 7, bits + 8),
        ] {
            range(checker, &zeros, first, count)?;
            range(checker, &ends, first, count)?;
        }
    }
    Ok(())
}

/// A random stream: of pulses with each flaw in turn, or of random bits.
pub fn random_stream(random: &mut Random, number: u64) -> Stream {
    let flaws = Flaw::ALL.len() as u64;
    let kind = number % (flaws + 1);
    if kind == flaws {
        let count = random.below(60);
        // Few ones, so that some are accepted.
        let one_in = 2 + random.below(12);
        let bits: Vec<bool> = (0..count).map(|_| random.one_in(one_in)).collect();
        return Stream::new().raw(&bits);
    }
    let most = match random.below(64) {
        0 => 2_000,
        1..=8 => 150,
        _ => 12,
    };
    let commands = random.below(most) as usize;
    let sent = pulses(random, commands);
    Flaw::ALL[kind as usize].put_into(&sent, random)
}

fn random_calls(checker: &mut Checker) -> io::Result<()> {
    let mut counts = BTreeMap::new();
    for number in 0..CALLS {
        let mut random = Random::new(SEED + 0x1_0000 + number);
        let stream = random_stream(&mut random, number);
        let first = random.below(2) * random.below(30);
        let after = random.below(2) * random.below(30);
        let mut call = lent(&stream.bits, first, after, &mut random);
        if let Call::Accept { input, count, .. } = &mut call {
            if random.one_in(20) {
                // Past the end by some bits.
                *count = input.len() as u64 * 8 - first + 1 + random.below(9);
            }
        }
        let expected = checker.check(format!("stream {number}"), &call)?;
        *counts.entry(expected.answer & 0xFF).or_insert(0) += 1;
    }
    // That each is among them many times is a check of its own.
    for number in [
        OK,
        WRONG_RANGE,
        UNKNOWN_PATTERN,
        CUT_PATTERN,
        PATTERN_TOO_CLOSE,
    ] {
        let count: u64 = counts.get(&number).copied().unwrap_or(0);
        let fault = (count < CALLS / 30).then(|| format!("only {count} calls are answered so"));
        checker.report(format!("streams with number {number}"), fault)?;
    }
    Ok(())
}

/// As many commands as fit, as dense as the timing table allows, and zeros up
/// to so many bits.
pub fn dense(random: &mut Random, bits: usize) -> Pulses {
    // A command and the zeros asked ahead of it have no more.
    const MOST: usize = 11;
    let mut pulses = Pulses::new();
    while pulses.stream.bits.len() + MOST <= bits {
        let command = ALL[random.below(ALL.len() as u64) as usize];
        pulses = pulses.send(0, command);
    }
    let rest = bits - pulses.stream.bits.len();
    pulses.zeros(rest)
}

/// A mebibyte of dense commands: accepted, from a later bit, and with each
/// fault near its end; and of zeros.
fn large(checker: &mut Checker) -> io::Result<()> {
    let mut random = Random::new(SEED + 3);
    let sent = dense(&mut random, BITS - 64);
    let clean = sent.stream.clone().zeros(64);
    let call = |stream: &Stream, first: u64, count: u64| Call::Accept {
        input: stream.bytes(),
        first,
        count,
    };
    let all = BITS as u64;
    let mut one = |name: &str, number: u64, call: &Call| {
        let name = format!("large stream, {name}");
        checker.check_number(name, number, call)
    };
    one("accepted", OK, &call(&clean, 0, all))?;
    // From each of the first commands on.
    for &(_, first) in sent.sent.iter().take(8) {
        let from = first as u64;
        let name = format!("accepted from bit {from}");
        one(&name, OK, &call(&clean, from, all - from))?;
    }
    let last = sent.sent[sent.sent.len() - 1];
    let (command, place) = (last.0, last.1 as u64);
    let end = place + command.bits() as u64;
    one("accepted up to its end", OK, &call(&clean, 0, end))?;
    let cut = verdict(CUT_PATTERN, place);
    one("cut", cut, &call(&clean, 0, end - 1))?;
    let mut unknown = clean.clone();
    unknown.bits[BITS - 60..][..4].copy_from_slice(&[true; 4]);
    let number = verdict(UNKNOWN_PATTERN, all - 60);
    one("unknown", number, &call(&unknown, 0, all))?;
    let needed = sent.needed_zeros();
    for zero in [
        needed[0],
        needed[needed.len() / 2],
        needed[needed.len() - 1],
    ] {
        let mut close = clean.clone();
        close.bits.remove(zero);
        let close = close.zeros(1);
        let number = verdict(PATTERN_TOO_CLOSE, zero as u64);
        one(
            &format!("too close at {zero}"),
            number,
            &call(&close, 0, all),
        )?;
    }
    let zeros = Stream::new().zeros(BITS);
    one("zeros", OK, &call(&zeros, 0, all))?;
    one("zeros from bit 5", OK, &call(&zeros, 5, all - 5))?;
    let mut one_bit = zeros;
    one_bit.bits[BITS - 1] = true;
    let number = verdict(CUT_PATTERN, all - 1 - 5);
    one("zeros and a one", number, &call(&one_bit, 5, all - 5))?;
    // Some inverted bits: whatever comes of them.
    for number in 0..20 {
        let mut hit = clean.clone();
        let place = random.below(all) as usize;
        hit.bits[place] = !hit.bits[place];
        let name = format!("large stream, hit {number} at {place}");
        checker.check(name, &call(&hit, 0, all))?;
    }
    Ok(())
}
