//! Replies (document 02, F-12): what the request's words make of a range, and
//! ranges that may hold one.

use cases::{Random, Stream};
use reader::Reply;

pub const HEADER: &str = "11101";

pub fn bits(text: &str) -> Vec<bool> {
    Stream::new().pattern(text).bits
}

pub fn packed(bits: &[bool]) -> Vec<u8> {
    Stream::new().raw(bits).bytes()
}

pub fn text_of(bits: &[bool]) -> String {
    let digit = |&bit: &bool| if bit { '1' } else { '0' };
    bits.iter().map(digit).collect()
}

/// Each bit for eight cycles.
pub fn eight_each(bits: &[bool]) -> Vec<bool> {
    bits.iter().flat_map(|&bit| [bit; 8]).collect()
}

pub fn random_bits(random: &mut Random, count: usize) -> Vec<bool> {
    (0..count).map(|_| random.bit()).collect()
}

pub fn random_bytes(random: &mut Random, count: usize) -> Vec<u8> {
    (0..count).map(|_| random.word() as u8).collect()
}

/// Up to this many, and as often 0 as anything else.
pub fn a_few(random: &mut Random, most: u64) -> usize {
    match random.bit() {
        true => 0,
        false => random.below(most + 1) as usize,
    }
}

/// The vote of F-4, in its words.
pub fn vote(group: &[bool]) -> bool {
    match group.iter().filter(|&&bit| bit).count() {
        5.. => true,
        4 => group[0],
        _ => false,
    }
}

/// The data bits behind a header at this place, as many as are complete.
pub fn behind(range: &[bool], place: usize, expected: usize) -> Vec<bool> {
    let groups = range[place + 5..].chunks_exact(8);
    groups.take(expected).map(vote).collect()
}

/// The answer and the complete bits, by the words of the request.
pub fn by_the_words(range: &[bool], expected: usize) -> (Reply, Vec<bool>) {
    let header = bits(HEADER);
    let Some(place) = range.windows(5).position(|five| five == header) else {
        return (Reply::NoHeader, Vec::new());
    };
    let complete = behind(range, place, expected);
    let answer = match complete.len() == expected {
        true => Reply::Whole,
        false => Reply::CutShort(complete.len() as u64),
    };
    (answer, complete)
}

/// What complete bits make of a buffer: they fill it from its start, the last
/// byte's unused bits are zero, bytes beyond are unchanged.
pub fn filled(before: &[u8], complete: &[bool]) -> Vec<u8> {
    let bytes = packed(complete);
    let beyond = &before[bytes.len()..];
    [&bytes, beyond].concat()
}

/// An input that may hold a reply somewhere: of few bits, of many, or noise.
pub fn any_input(random: &mut Random) -> Vec<bool> {
    let ahead = a_few(random, 40);
    let ahead = random_bits(random, ahead);
    let most = [4, 40, 400][random.below(3) as usize];
    let data = random.below(most) as usize;
    let data = eight_each(&random_bits(random, data));
    let behind = a_few(random, 40);
    let behind = random_bits(random, behind);
    let mut all = match random.below(8) {
        // Mostly zeros or ones, where headers are rare.
        0 => vec![random.bit(); 200],
        1 => random_bits(random, 200),
        _ => [ahead, bits(HEADER), data, behind].concat(),
    };
    let one_in = [8, 30, 1_000][random.below(3) as usize];
    for bit in &mut all {
        *bit ^= random.one_in(one_in);
    }
    all
}

/// A reply as it is sent and arrives: bits ahead that hold no header, not even
/// with the first of its own bits; the header; each bit eight times, with at
/// most three cycles of each group inverted; anything behind.
pub struct Sent {
    pub data: Vec<bool>,
    /// The place of the header.
    pub place: usize,
    pub stream: Vec<bool>,
}

impl Sent {
    /// Of so many bits at most.
    pub fn new(random: &mut Random, most: u64) -> Sent {
        let mut stream = Vec::new();
        let ahead = a_few(random, 60);
        let ones = [1, 2, 4][random.below(3) as usize];
        while stream.len() < ahead {
            stream.push(!random.one_in(ones + 1));
        }
        stream.extend(bits(HEADER));
        // What completes a header too early is no bit of the line ahead.
        let header = bits(HEADER);
        while let Some(early) = stream[..stream.len() - 1]
            .windows(5)
            .position(|five| five == header)
        {
            stream.remove(early);
        }
        let place = stream.len() - 5;
        let count = 1 + random.below(most) as usize;
        let data = random_bits(random, count);
        for group in eight_each(&data).chunks(8) {
            let mut group = group.to_vec();
            for _ in 0..random.below(4) {
                let cycle = random.below(8) as usize;
                group[cycle] = !group[cycle];
            }
            stream.extend(group);
        }
        let behind = a_few(random, 40);
        stream.extend(random_bits(random, behind));
        Sent {
            data,
            place,
            stream,
        }
    }
}
