//! A library that reads replies wrongly is noticed: each slip shows in the
//! random calls of the comparison, and a reader without one shows none.

use cases::Random;
use compare::interface::call::{Call, ReadReply};
use compare::interface::difference::difference;
use compare::interface::expected::expected;
use compare::interface::layout::{reply, CUT_SHORT, NO_HEADER, WHOLE};
use compare::interface::replies::{bytes_of, random_call};

/// What is done wrongly in one place.
#[derive(Clone, Copy, Debug, PartialEq, Eq)]
enum Slip {
    None,
    /// The header with a bit hit is taken too.
    HitHeader,
    /// The last header within the range is taken.
    LastHeader,
    /// A header may begin ahead of the range.
    EarlyHeader,
    /// Four ones are a 0, a 1, or the last cycle's bit.
    TieIsZero,
    TieIsOne,
    TieByLast,
    /// One cycle stands for all eight.
    NoVote,
    /// Seven cycles make a bit.
    PartIsComplete,
    /// The bits behind the expected ones are read too.
    MoreBits,
    /// The lowest bit of a byte is the first.
    LowestFirst,
    /// The last byte's unused bits stay.
    KeepsUnused,
    /// The bytes beyond are zeroed: always, cut short, or without a header.
    ZeroesBeyond,
    ZeroesExpected,
    ZeroesWithoutHeader,
    /// A refusal zeroes the buffer.
    ZeroesRefused,
    /// The count of a whole reply is that of the bits behind its header.
    CountsAll,
    /// Cut short and without a header are exchanged.
    Exchanged,
    /// Cut short with no bit is without a header.
    NoBitsNoHeader,
    /// The limits are off by one.
    TakesNone,
    Takes8192,
    Refuses8191,
    BufferByWholeBytes,
    BufferExact,
    /// The range is not checked up to 2^64.
    RangeWraps,
    /// Numbers in another order.
    RangeFirst,
    BufferFirst,
}

const SLIPS: [Slip; 26] = [
    Slip::HitHeader,
    Slip::LastHeader,
    Slip::EarlyHeader,
    Slip::TieIsZero,
    Slip::TieIsOne,
    Slip::TieByLast,
    Slip::NoVote,
    Slip::PartIsComplete,
    Slip::MoreBits,
    Slip::LowestFirst,
    Slip::KeepsUnused,
    Slip::ZeroesBeyond,
    Slip::ZeroesExpected,
    Slip::ZeroesWithoutHeader,
    Slip::ZeroesRefused,
    Slip::CountsAll,
    Slip::Exchanged,
    Slip::NoBitsNoHeader,
    Slip::TakesNone,
    Slip::Takes8192,
    Slip::Refuses8191,
    Slip::BufferByWholeBytes,
    Slip::BufferExact,
    Slip::RangeWraps,
    Slip::RangeFirst,
    Slip::BufferFirst,
];

const HEADER: [bool; 5] = [true, true, true, false, true];

fn bit(input: &[u8], place: u64) -> bool {
    input[(place / 8) as usize] >> (7 - place % 8) & 1 == 1
}

fn vote(group: &[bool], slip: Slip) -> bool {
    let ones = group.iter().filter(|&&bit| bit).count();
    match ones {
        _ if slip == Slip::NoVote => group[3],
        0..=3 => false,
        4 => match slip {
            Slip::TieIsZero => false,
            Slip::TieIsOne => true,
            Slip::TieByLast => group[group.len() - 1],
            _ => group[0],
        },
        _ => true,
    }
}

/// The number of a refusal, 0 for none.
fn refusal(call: &ReadReply, slip: Slip) -> u64 {
    let most = match slip {
        Slip::Takes8192 => 8_192,
        Slip::Refuses8191 => 8_190,
        _ => 8_191,
    };
    let least = u64::from(slip != Slip::TakesNone);
    let count_fits = (least..=most).contains(&call.expected);
    let room = call.buffer.len() as u64;
    let buffer_fits = match slip {
        Slip::BufferByWholeBytes => call.expected / 8 <= room,
        Slip::BufferExact => room == bytes_of(call.expected.min(9_999)) as u64,
        _ => call.expected <= 8 * room,
    };
    let end = match slip {
        Slip::RangeWraps => call.first.wrapping_add(call.count),
        _ => call.first.saturating_add(call.count),
    };
    let range_fits = end <= 8 * call.input.len() as u64;
    let mut checks = [(count_fits, 18), (buffer_fits, 19), (range_fits, 5)];
    match slip {
        Slip::RangeFirst => checks.rotate_right(1),
        Slip::BufferFirst => checks.swap(0, 1),
        _ => {}
    }
    let wrong = checks.iter().find(|(fits, _)| !fits);
    wrong.map_or(0, |&(_, number)| number)
}

/// The answer and the buffer of a reader with a slip.
fn read(call: &ReadReply, slip: Slip) -> (u64, Vec<u8>) {
    let mut buffer = call.buffer.clone();
    let number = refusal(call, slip);
    if number != 0 {
        if slip == Slip::ZeroesRefused {
            buffer.fill(0);
        }
        return (number, buffer);
    }
    let input_bits = 8 * call.input.len() as u64;
    let first = match slip {
        Slip::EarlyHeader => call.first.saturating_sub(4),
        // A range that wraps is read from the input's start.
        _ if call.first > input_bits => 0,
        _ => call.first,
    };
    let end = call.first.wrapping_add(call.count);
    let range: Vec<bool> = (first..end).map(|place| bit(&call.input, place)).collect();
    let is_header = |five: &[bool]| {
        let hit = five.iter().zip(HEADER).filter(|(&a, b)| a != *b).count();
        hit == 0 || (slip == Slip::HitHeader && hit == 1)
    };
    let mut fives = range.windows(5);
    let found = match slip {
        Slip::LastHeader => fives.rposition(is_header),
        _ => fives.position(is_header),
    };
    let Some(place) = found else {
        if slip == Slip::ZeroesWithoutHeader {
            buffer.fill(0);
        }
        let said = if slip == Slip::Exchanged {
            CUT_SHORT
        } else {
            NO_HEADER
        };
        return (reply(said, 0), buffer);
    };
    let behind = &range[place + 5..];
    let expected = call.expected as usize;
    let cycles = if slip == Slip::PartIsComplete { 7 } else { 8 };
    let groups = behind.chunks(8).filter(|group| group.len() >= cycles);
    let most = match slip {
        Slip::MoreBits => expected.max(8 * buffer.len()),
        _ => expected,
    };
    let bits: Vec<bool> = groups.take(most).map(|group| vote(group, slip)).collect();
    if slip == Slip::ZeroesExpected {
        buffer[..bytes_of(call.expected)].fill(0);
    }
    for (place, &bit) in bits.iter().enumerate() {
        let at = if slip == Slip::LowestFirst {
            place % 8
        } else {
            7 - place % 8
        };
        let Some(byte) = buffer.get_mut(place / 8) else {
            break;
        };
        if place % 8 == 0 && slip != Slip::KeepsUnused {
            *byte = 0;
        }
        *byte = *byte & !(1 << at) | u8::from(bit) << at;
    }
    if slip == Slip::ZeroesBeyond {
        buffer[bits.len().div_ceil(8)..].fill(0);
    }
    let complete = bits.len().min(expected);
    let answer = match complete == expected {
        true if slip == Slip::CountsAll => reply(WHOLE, (behind.len() / 8) as u64),
        true => reply(WHOLE, call.expected),
        false if slip == Slip::NoBitsNoHeader && complete == 0 => reply(NO_HEADER, 0),
        false if slip == Slip::Exchanged => reply(NO_HEADER, complete as u64),
        false => reply(CUT_SHORT, complete as u64),
    };
    (answer, buffer)
}

/// How many of some random calls show a slip.
fn shown(slip: Slip) -> u32 {
    let mut shown = 0;
    for number in 0..3_000 {
        let call = random_call(&mut Random::new(0x51_1900 + number));
        let (answer, buffer) = read(&call, slip);
        let sent = [&answer.to_le_bytes()[..], &buffer].concat();
        let expected = expected(&Call::Reply(call));
        shown += u32::from(difference(&expected, &sent).is_some());
    }
    shown
}

#[test]
fn a_reader_without_a_slip_shows_no_difference() {
    assert_eq!(shown(Slip::None), 0);
}

#[test]
fn each_slip_is_noticed() {
    for slip in SLIPS {
        let shown = shown(slip);
        assert!(shown > 0, "{slip:?} is not noticed");
    }
}
