//! Reading a reply (document 02, F-12): every way of an answer by hand, every
//! range of up to 18 bits and random calls against the request's words, and
//! sent replies that are read back.

mod common;

use cases::Random;
use common::replies::*;
use reader::{read_reply, DataBits, NoReply, Reply, ReplyReader};
use std::collections::BTreeMap;

/// The longest input (document 02, F-6).
const LONGEST: usize = 1_048_576;

/// A call over all these bits and its answer, with the complete bits; in
/// buffers of each size that is fit and with whatever they hold.
fn read(range: &[bool], expected: u64) -> (Reply, Vec<bool>) {
    let input = packed(range);
    let answers = [(0x00, 0), (0xFF, 0), (0x5A, 1), (0xA5, 70)].map(|(byte, more)| {
        let before = vec![byte; (expected as usize).div_ceil(8) + more];
        let mut buffer = before.clone();
        let answer = read_reply(&input, 0, range.len() as u64, expected, &mut buffer);
        let answer = answer.expect("a fit call");
        let complete = match answer {
            Reply::Whole => expected as usize,
            Reply::NoHeader => 0,
            Reply::CutShort(complete) => complete as usize,
        };
        let bit = |place: usize| buffer[place / 8] >> (7 - place % 8) & 1 == 1;
        let complete: Vec<bool> = (0..complete).map(bit).collect();
        assert_eq!(buffer, filled(&before, &complete));
        (answer, complete)
    });
    let [first, others @ ..] = answers;
    assert!(others.into_iter().all(|other| other == first));
    first
}

/// The same by texts of 0 and 1.
fn read_text(text: &str, expected: u64) -> (Reply, String) {
    let (answer, complete) = read(&bits(text), expected);
    (answer, text_of(&complete))
}

fn found(answer: Reply, complete: &str) -> (Reply, String) {
    (answer, complete.to_string())
}

#[test]
fn answers_by_hand() {
    let one = "11111111";
    let zero = "00000000";
    let text = |parts: &[&str]| parts.concat();
    for (text, expected, answer) in [
        ("".to_string(), 1, found(Reply::NoHeader, "")),
        ("1".to_string(), 1, found(Reply::NoHeader, "")),
        ("1110".to_string(), 1, found(Reply::NoHeader, "")),
        (zero.repeat(9), 1, found(Reply::NoHeader, "")),
        (one.repeat(9), 1, found(Reply::NoHeader, "")),
        (text(&[HEADER]), 1, found(Reply::CutShort(0), "")),
        (text(&[HEADER]), 8_191, found(Reply::CutShort(0), "")),
        (text(&[HEADER, "1111111"]), 1, found(Reply::CutShort(0), "")),
        (text(&[HEADER, one]), 1, found(Reply::Whole, "1")),
        (text(&[HEADER, zero]), 1, found(Reply::Whole, "0")),
        (text(&[HEADER, one]), 2, found(Reply::CutShort(1), "1")),
        (
            text(&[HEADER, one, zero, one, "1111111"]),
            4,
            found(Reply::CutShort(3), "101"),
        ),
        (
            text(&[HEADER, one, zero, one, one]),
            4,
            found(Reply::Whole, "1011"),
        ),
        (
            text(&[HEADER, &zero.repeat(8), one]),
            9,
            found(Reply::Whole, "000000001"),
        ),
        (
            text(&[HEADER, &one.repeat(8), "0000000"]),
            9,
            found(Reply::CutShort(8), "11111111"),
        ),
        // Bits behind the expected ones are ignored.
        (text(&[HEADER, one, "0"]), 1, found(Reply::Whole, "1")),
        (
            text(&[HEADER, one, zero, HEADER, one]),
            2,
            found(Reply::Whole, "10"),
        ),
        (
            text(&["000", HEADER, zero, one, &one.repeat(40)]),
            2,
            found(Reply::Whole, "01"),
        ),
    ] {
        assert_eq!(read_text(&text, expected), answer, "{text}");
    }
}

/// At each place of the range, behind bits that hold no header, and with each
/// first bit of the range.
#[test]
fn a_header_at_each_place() {
    let mut random = Random::new(0xF12_0001);
    let data = bits("1011000101");
    for ahead in 0..=24 {
        for filler in ["0", "1", "10", "01", "1100", "110", "011010", "1000"] {
            let filler: String = filler.repeat(24)[..ahead].to_string();
            let range = [bits(&filler), bits(HEADER), eight_each(&data)].concat();
            assert_eq!(by_the_words(&range, 10).0, Reply::Whole);
            assert_eq!(read(&range, 10), (Reply::Whole, data.clone()));
            for first in 0..=9 {
                // Anything ahead of the range and behind it.
                let input = packed(
                    &[
                        random_bits(&mut random, first),
                        range.clone(),
                        random_bits(&mut random, 9),
                    ]
                    .concat(),
                );
                let mut buffer = [0xFF; 3];
                let count = range.len() as u64;
                let answer = read_reply(&input, first as u64, count, 10, &mut buffer);
                assert_eq!(answer, Ok(Reply::Whole));
                assert_eq!(buffer, [0b1011_0001, 0b0100_0000, 0xFF]);
            }
        }
    }
}

/// The lowest place counts, nothing of an unfinished one is dropped, and a
/// header is not sought again.
#[test]
fn headers_that_overlap() {
    let mut random = Random::new(0xF12_0002);
    for (text, place) in [
        ("1 11101", 1),
        ("11 11101", 2),
        ("111 11101", 3),
        ("1111 11101", 4),
        ("1110 11101", 0),
        ("0 1110 11101", 1),
        ("11101 11101", 0),
        ("11101 11101 11101", 0),
        ("1110 1110 11101", 0),
        ("110 11101", 3),
        ("1110 0 11101", 5),
        ("1110 0 1110 11101", 5),
        ("1100 11101", 4),
        ("10 11101", 2),
        ("101 11101", 3),
        ("1011 11101", 4),
        ("111 1110 0 11101", 8),
        ("111 1110 11101", 3),
        ("11111111111 0 1", 8),
        ("01101 11101", 5),
    ] {
        for _ in 0..20 {
            let range = [bits(text), random_bits(&mut random, 80)].concat();
            for expected in [1, 2, 7, 8, 9, 100] {
                let complete = behind(&range, place, expected as usize);
                let answer = match complete.len() as u64 {
                    count if count == expected => Reply::Whole,
                    count => Reply::CutShort(count),
                };
                assert_eq!(read(&range, expected), (answer, complete), "{text}");
            }
        }
    }
    // Behind a first header the next one's bits are data.
    let range = "11101 1101 1000 11111111";
    assert_eq!(read_text(range, 2), found(Reply::Whole, "11"));
    let range = "1110 11101 10000000";
    assert_eq!(read_text(range, 1), found(Reply::Whole, "1"));
    let range = "11101 11101000 11101000 111";
    assert_eq!(read_text(range, 2), found(Reply::Whole, "11"));
    assert_eq!(read_text(range, 3), found(Reply::CutShort(2), "11"));
}

/// All five bits but the header's, flips among them, are none.
#[test]
fn there_is_no_allowance_for_a_flip() {
    for five in 0..32 {
        let five = format!("{five:05b}");
        for (ahead, after) in [("", 0), ("", 7), ("0", 1), ("00000", 8), ("0", 20)] {
            let text = format!("{ahead}{five}{}", "0".repeat(after));
            let expected = match five == HEADER {
                true if after >= 8 => found(Reply::Whole, "0"),
                true => found(Reply::CutShort(0), ""),
                false => found(Reply::NoHeader, ""),
            };
            assert_eq!(read_text(&text, 1), expected, "{text}");
        }
    }
    // The next exact one counts.
    for flipped in ["01101", "10101", "11001", "11111", "11100"] {
        for between in ["0", "00", "00000000"] {
            let text = format!("{flipped}{between}{HEADER}00011111");
            assert_eq!(read_text(&text, 1), found(Reply::Whole, "1"), "{text}");
        }
    }
}

/// The whole header is in the range: not what stands ahead of it, nor what
/// stands behind.
#[test]
fn a_header_at_the_borders() {
    let text = format!("0000{HEADER}{}0000000", "10000000");
    let input = packed(&bits(&text));
    let all = text.len() as u64;
    for first in 0..=all {
        for count in 0..=all - first {
            let answer = match first <= 4 {
                true if first + count >= 9 + 8 => Reply::Whole,
                true if first + count >= 9 => Reply::CutShort(0),
                _ => Reply::NoHeader,
            };
            for before in [0x00, 0xFF] {
                let mut buffer = [before; 2];
                let read = read_reply(&input, first, count, 1, &mut buffer);
                assert_eq!(read, Ok(answer), "{count} bits from {first}");
                let after = match answer {
                    Reply::Whole => [0x00, before],
                    _ => [before; 2],
                };
                assert_eq!(buffer, after);
            }
        }
    }
}

fn all_ranges(most: usize) -> impl Iterator<Item = Vec<bool>> {
    let range = |number: usize, length: usize| -> Vec<bool> {
        let places = (0..length).rev();
        places.map(|place| number >> place & 1 == 1).collect()
    };
    (0..=most).flat_map(move |length| (0..1 << length).map(move |number| range(number, length)))
}

#[test]
fn every_range_of_up_to_18_bits() {
    let mut counts = BTreeMap::new();
    for range in all_ranges(18) {
        let input = packed(&range);
        for expected in [1, 2] {
            let (answer, complete) = by_the_words(&range, expected);
            let before = [0x96, 0x69];
            let mut buffer = before;
            let count = range.len() as u64;
            let read = read_reply(&input, 0, count, expected as u64, &mut buffer);
            assert_eq!(read, Ok(answer), "{}", text_of(&range));
            assert_eq!(buffer[..], filled(&before, &complete));
            let key = (expected, format!("{answer:?}"));
            *counts.entry(key).or_insert(0) += 1;
        }
    }
    let answers = [
        ((1, "CutShort(0)"), 105_417),
        ((1, "NoHeader"), 338_230),
        ((1, "Whole"), 80_640),
        ((2, "CutShort(0)"), 105_417),
        ((2, "CutShort(1)"), 80_640),
        ((2, "NoHeader"), 338_230),
    ];
    let answers =
        answers.map(|((expected, answer), count)| ((expected, answer.to_string()), count));
    assert_eq!(counts, BTreeMap::from(answers));
    assert_eq!(counts.values().sum::<u32>(), 2 * 524_287);
}

/// Every group of eight cycles: five ones or more, three or fewer, and with
/// four the first.
#[test]
fn every_group() {
    let (mut ones, mut ties) = (0, [0, 0]);
    for group in 0..=255_u8 {
        let cycles = format!("{group:08b}");
        let expected = match cycles.matches('1').count() {
            4 => &cycles[..1],
            5.. => "1",
            _ => "0",
        };
        if cycles.matches('1').count() == 4 {
            ties[usize::from(expected == "1")] += 1;
        }
        ones += u32::from(expected == "1");
        let answer = found(Reply::Whole, expected);
        assert_eq!(read_text(&format!("{HEADER}{cycles}"), 1), answer);
        // Nothing of a group is left for the next, or comes from the one
        // before.
        for other in ["00000000", "11111111", "11110000", "00001111"] {
            let last = if other.starts_with('1') { "1" } else { "0" };
            let text = format!("0{HEADER}{cycles}{other}{cycles}");
            let data = format!("{expected}{last}{expected}");
            assert_eq!(read_text(&text, 3), found(Reply::Whole, &data));
        }
    }
    assert_eq!((ones, ties), (128, [35, 35]));
}

/// Each count modulo 8, up to the greatest; whole and cut short; in buffers
/// that just hold the bits, hold more or too little.
#[test]
fn each_count_of_bits() {
    let mut random = Random::new(0xF12_0003);
    for expected in (1..=72).chain(8_176..=8_191) {
        let data = random_bits(&mut random, expected);
        let range = [bits("0"), bits(HEADER), eight_each(&data)].concat();
        let input = packed(&range);
        let count = range.len() as u64;
        let bytes = expected.div_ceil(8);
        for more in [0, 1, 2, 9, 2_000] {
            let before = random_bytes(&mut random, bytes + more);
            let mut buffer = before.clone();
            let answer = read_reply(&input, 0, count, expected as u64, &mut buffer);
            assert_eq!(answer, Ok(Reply::Whole));
            assert_eq!(buffer, filled(&before, &data));
        }
        for fewer in [1, 2, bytes] {
            let before = random_bytes(&mut random, bytes.saturating_sub(fewer));
            let mut buffer = before.clone();
            let answer = read_reply(&input, 0, count, expected as u64, &mut buffer);
            assert_eq!(answer, Err(NoReply::Buffer));
            assert_eq!(buffer, before);
        }
        // One cycle too few, and about one bit.
        for missing in [1, 7, 8, 9] {
            let Some(cycles) = (8 * expected).checked_sub(missing) else {
                continue;
            };
            let complete = cycles / 8;
            let before = random_bytes(&mut random, bytes + 1);
            let mut buffer = before.clone();
            let count = (6 + cycles) as u64;
            let answer = read_reply(&input, 0, count, expected as u64, &mut buffer);
            assert_eq!(answer, Ok(Reply::CutShort(complete as u64)));
            assert_eq!(buffer, filled(&before, &data[..complete]));
        }
    }
}

/// A call with a buffer of so many bytes; its number, or 0. A refusal changes
/// no byte.
fn number(input: &[u8], first: u64, count: u64, expected: u64, bytes: usize) -> u8 {
    let before = vec![0xC3; bytes];
    let mut buffer = before.clone();
    match read_reply(input, first, count, expected, &mut buffer) {
        Ok(_) => 0,
        Err(refused) => {
            assert_eq!(buffer, before);
            refused.number()
        }
    }
}

/// 18 goes ahead of 19, and 19 ahead of 5.
#[test]
fn which_number_goes_first() {
    let input = &packed(&bits("11101 11111111 00000000"))[..];
    let long = &vec![0; LONGEST + 1][..];
    let ranges = [
        (input, 0, 21, true),
        (input, 24, 0, true),
        (input, 0, 25, false),
        (input, 25, 0, false),
        (input, 1, u64::MAX, false),
        (input, u64::MAX, u64::MAX, false),
        (long, 0, 0, false),
        (long, 0, 21, false),
    ];
    for expected in [0, 1, 8, 9, 8_184, 8_185, 8_191, 8_192, 65_537, u64::MAX] {
        for bytes in [0, 1, 2, 1_022, 1_023, 1_024, 1_025] {
            for (input, first, count, fits) in ranges {
                let by_the_table = if expected == 0 || expected > 8_191 {
                    18
                } else if 8 * (bytes as u64) < expected {
                    19
                } else if !fits {
                    5
                } else {
                    0
                };
                let number = number(input, first, count, expected, bytes);
                assert_eq!(number, by_the_table, "{expected} {bytes} {first} {count}");
            }
        }
    }
    // All three alone, each two, and all.
    assert_eq!(number(input, 0, 21, 0, 1), 18);
    assert_eq!(number(input, 0, 21, 8_192, 1_024), 18);
    assert_eq!(number(input, 0, 21, 9, 1), 19);
    assert_eq!(number(input, 0, 25, 8, 1), 5);
    assert_eq!(number(input, 0, 21, 8_192, 1_023), 18);
    assert_eq!(number(input, 0, 25, 8_192, 1_024), 18);
    assert_eq!(number(input, 0, 25, 0, 0), 18);
    assert_eq!(number(input, 0, 25, 9, 1), 19);
    assert_eq!(number(input, 0, 25, 8_192, 1_023), 18);
}

/// Expected bits about the limits, and where a narrower number would have lost
/// the rest.
#[test]
fn expected_bits_about_the_limits() {
    let data = "10".repeat(4_100);
    let input = packed(&[bits(HEADER), eight_each(&bits(&data))].concat());
    let all = 8 * input.len() as u64;
    let mut buffer = vec![0; 3_000];
    for expected in [
        0,
        8_192,
        8_193,
        8_199,
        16_383,
        65_535,
        65_536,
        65_537,
        (1 << 32) - 1,
        1 << 32,
        (1 << 32) + 1,
        1 << 61,
        (1 << 61) + 8,
        u64::MAX - 7,
        u64::MAX,
    ] {
        let answer = read_reply(&input, 0, all, expected, &mut buffer);
        assert_eq!(answer, Err(NoReply::Expected), "{expected}");
        assert_eq!(DataBits::new(expected), None);
    }
    assert!(buffer.iter().all(|&byte| byte == 0));
    for expected in [1, 2, 8_190, 8_191] {
        let mut buffer = vec![0xFF; 1_025];
        let answer = read_reply(&input, 0, all, expected, &mut buffer);
        assert_eq!(answer, Ok(Reply::Whole));
        let complete = bits(&data[..expected as usize]);
        assert_eq!(buffer, filled(&[0xFF; 1_025], &complete));
        let fit = DataBits::new(expected).expect("a fit count");
        assert_eq!(fit.count(), expected);
        assert_eq!(fit.bytes(), packed(&complete).len());
    }
}

/// Number 5's rule, as for the other calls.
#[test]
fn ranges() {
    // A header at the start of each byte.
    let input = [0b1110_1111; 4];
    for (first, count) in [
        (0, 33),
        (1, 32),
        (32, 1),
        (33, 0),
        (u64::MAX, 0),
        (u64::MAX, 1),
        (u64::MAX, u64::MAX),
        (1, u64::MAX),
        (8, u64::MAX - 7),
        (u64::MAX - 7, 8),
        (u64::MAX - 31, 32),
        (0, u64::MAX),
        (1 << 63, 1 << 63),
    ] {
        assert_eq!(number(&input, first, count, 1, 1), 5, "{first} {count}");
    }
    let mut buffer = [0];
    let mut read = |first, count| read_reply(&input, first, count, 1, &mut buffer);
    assert_eq!(read(0, 32), Ok(Reply::Whole));
    assert_eq!(read(24, 8), Ok(Reply::CutShort(0)));
    assert_eq!(read(19, 13), Ok(Reply::CutShort(0)));
    assert_eq!(read(25, 7), Ok(Reply::NoHeader));
    assert_eq!(read(31, 1), Ok(Reply::NoHeader));
    assert_eq!(read(32, 0), Ok(Reply::NoHeader));
    assert_eq!(read_reply(&[], 0, 0, 1, &mut [0]), Ok(Reply::NoHeader));
    assert_eq!(number(&[], 0, 1, 1, 1), 5);
    assert_eq!(number(&[], 1, 0, 1, 1), 5);
}

/// Document 02, F-6.
#[test]
fn the_longest_input() {
    let all = 8 * LONGEST as u64;
    let mut input = vec![0; LONGEST];
    let before = [0xA5; 3];
    let read = |input: &[u8], first, count, expected| {
        let mut buffer = before;
        (
            read_reply(input, first, count, expected, &mut buffer),
            buffer,
        )
    };
    assert_eq!(read(&input, 0, all, 16), (Ok(Reply::NoHeader), before));
    // A reply that ends with the input.
    let data = bits("11111110 11111111");
    let reply = [bits("000"), bits(HEADER), eight_each(&data)].concat();
    input[LONGEST - 17..].copy_from_slice(&packed(&reply));
    let whole = (Ok(Reply::Whole), [0xFE, 0xFF, 0xA5]);
    let cut = (Ok(Reply::CutShort(15)), [0xFE, 0xFE, 0xA5]);
    assert_eq!(read(&input, 0, all, 16), whole);
    assert_eq!(read(&input, 0, all - 1, 16), cut);
    let from = all - 8 * 16 - 5;
    assert_eq!(read(&input, from, 8 * 16 + 5, 16), whole);
    let late = read(&input, from + 1, 8 * 16 + 4, 16);
    assert_eq!(late, (Ok(Reply::NoHeader), before));
    assert_eq!(read(&input, all, 0, 1).0, Ok(Reply::NoHeader));
    assert_eq!(read(&input, 0, all + 1, 16), (Err(NoReply::Range), before));
    // One byte more, even for no bits of it.
    input.push(0);
    for (first, count) in [(0, 0), (0, 8), (all + 8, 0), (0, all + 8)] {
        assert_eq!(
            read(&input, first, count, 16),
            (Err(NoReply::Range), before)
        );
    }
}

/// The answer and the buffer, by the words of the request, for any call.
fn call_by_the_words(
    input: &[u8],
    first: u64,
    count: u64,
    expected: u64,
    before: &[u8],
) -> (Result<Reply, u8>, Vec<u8>) {
    let refused = |number| (Err(number), before.to_vec());
    if expected == 0 || expected > 8_191 {
        return refused(18);
    }
    if 8 * before.len() < expected as usize {
        return refused(19);
    }
    let end = u128::from(first) + u128::from(count);
    if input.len() > LONGEST || end > 8 * input.len() as u128 {
        return refused(5);
    }
    let all: String = input.iter().map(|byte| format!("{byte:08b}")).collect();
    let range = bits(&all[first as usize..end as usize]);
    let (answer, complete) = by_the_words(&range, expected as usize);
    (Ok(answer), filled(before, &complete))
}

#[test]
fn random_calls() {
    let mut random = Random::new(0xF12_0004);
    let mut counts = BTreeMap::new();
    for _ in 0..40_000 {
        let input = packed(&any_input(&mut random));
        let all = 8 * input.len() as u64;
        let (first, count) = match random.below(16) {
            0 => (random.word(), random.word()),
            1 => (random.below(all + 2), random.below(all + 2)),
            _ => {
                let first = a_few(&mut random, all.min(50)) as u64;
                (first, all - first - a_few(&mut random, all - first) as u64)
            }
        };
        let expected = match random.below(20) {
            0 => [0, 8_192, u64::MAX, random.word()][random.below(4) as usize],
            1 => 1 + random.below(8_191),
            2..=9 => 1 + random.below(400),
            _ => 1 + random.below(40),
        };
        let enough = expected.min(8_192).div_ceil(8) as usize;
        let bytes = match random.below(8) {
            0 => random.below(enough as u64 + 1) as usize,
            1..=4 => enough,
            _ => enough + random.below(20) as usize,
        };
        let before = random_bytes(&mut random, bytes);
        let mut buffer = before.clone();
        let answer = read_reply(&input, first, count, expected, &mut buffer);
        let answer = answer.map_err(NoReply::number);
        let by_the_words = call_by_the_words(&input, first, count, expected, &before);
        assert_eq!((answer, buffer), by_the_words);
        let key = match answer {
            Ok(Reply::CutShort(0)) => "cut short at once".to_string(),
            Ok(Reply::CutShort(_)) => "cut short".to_string(),
            other => format!("{other:?}"),
        };
        *counts.entry(key).or_insert(0) += 1;
    }
    assert_eq!(counts.len(), 7, "{counts:?}");
    assert!(counts.values().all(|&count| count > 1_000), "{counts:?}");
    assert!(counts["Ok(Whole)"] > 5_000, "{counts:?}");
    assert!(counts["cut short"] > 10_000, "{counts:?}");
}

#[test]
fn sent_replies_are_read_back() {
    let mut random = Random::new(0xF12_0005);
    let mut overlapping = 0;
    for number in 0..6_000 {
        let most = if number % 50 == 0 { 8_191 } else { 60 };
        let sent = Sent::new(&mut random, most);
        let outside = random_bits(&mut random, 16);
        let first = random.below(9);
        let (ahead, after) = (&outside[..first as usize], &outside[first as usize..]);
        let input = packed(&[ahead, &sent.stream, after].concat());
        let count = sent.stream.len() as u64;
        let expected = sent.data.len() as u64;
        let bytes = sent.data.len().div_ceil(8) + a_few(&mut random, 9);
        let before = random_bytes(&mut random, bytes);
        let mut buffer = before.clone();
        let answer = read_reply(&input, first, count, expected, &mut buffer);
        assert_eq!(answer, Ok(Reply::Whole));
        assert_eq!(buffer, filled(&before, &sent.data));
        overlapping += u32::from(sent.place > 0 && sent.stream[sent.place - 1]);

        // Cut off anywhere, it is cut short by what is missing.
        let kept = random.below(sent.place as u64 + 5 + 8 * expected);
        let mut buffer = before.clone();
        let answer = read_reply(&input, first, kept, expected, &mut buffer);
        let complete = match (kept as usize).checked_sub(sent.place + 5) {
            None => {
                assert_eq!(answer, Ok(Reply::NoHeader));
                0
            }
            Some(cycles) => {
                assert_eq!(answer, Ok(Reply::CutShort(cycles as u64 / 8)));
                cycles / 8
            }
        };
        assert_eq!(buffer, filled(&before, &sent.data[..complete]));
    }
    assert!(overlapping > 1_000, "{overlapping}");
}

/// The streaming form, in whatever parts its bits come: what it answers after
/// each bit is what a call on the bits so far answers.
#[test]
fn a_reader_goes_on_where_it_stopped() {
    let mut random = Random::new(0xF12_0006);
    for _ in 0..400 {
        let range = any_input(&mut random);
        let input = packed(&range);
        let expected = 1 + random.below(30);
        let data_bits = DataBits::new(expected).expect("a fit count");
        let mut reader = ReplyReader::start(data_bits);
        let mut complete = Vec::new();
        for taken in 0..=range.len() {
            let by_the_words = by_the_words(&range[..taken], expected as usize);
            let mut buffer = [0; 4];
            let answer = read_reply(&input, 0, taken as u64, expected, &mut buffer);
            assert_eq!(answer, Ok(by_the_words.0));
            assert_eq!((reader.answer(), complete.clone()), by_the_words);
            assert_eq!(reader.complete(), complete.len() as u64);
            assert_eq!(reader.taken(), taken as u64);
            let Some(&bit) = range.get(taken) else {
                break;
            };
            if let Some(data_bit) = reader.take(bit) {
                assert_eq!(data_bit.place as usize, complete.len());
                complete.push(data_bit.bit);
            }
        }
    }
}
