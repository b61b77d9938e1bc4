//! The proved check of a stream against the separate reader's: every stream of
//! 0 to 18 bits, and long ones of commands, some with an inverted bit, a lost
//! zero or a cut end.

use bench::accept;

/// Number and place, 0 and 0 where the stream is accepted.
fn told(input: &[u8], first: usize, count: usize) -> (u64, u64) {
    let answer = accept(input, first, count);
    (answer & 0xFF, answer >> 8)
}

fn expected(input: &[u8], first: usize, count: usize) -> (u64, u64) {
    match reader::accept(input, first as u64, count as u64) {
        Ok(()) => (0, 0),
        Err(fault) => (fault.number().into(), fault.place),
    }
}

#[test]
fn every_stream_of_up_to_18_bits() {
    let mut accepted = 0;
    for count in 0..=18 {
        for bits in 0u32..1 << count {
            // Behind some first bits of ones, which are no part of it.
            for first in [0, 3] {
                let word = !(u32::MAX >> first) | bits << (31 - first - count) << 1;
                let input = word.to_be_bytes();
                let answer = told(&input, first, count);
                assert_eq!(
                    answer,
                    expected(&input, first, count),
                    "{bits:b} of {count}"
                );
                accepted += (answer == (0, 0)) as u32;
            }
        }
    }
    assert_eq!(accepted, 2 * 798);
}

/// xorshift, seeded, so that every run is the same.
struct Random(u64);

impl Random {
    fn below(&mut self, n: usize) -> usize {
        self.0 ^= self.0 << 13;
        self.0 ^= self.0 >> 7;
        self.0 ^= self.0 << 17;
        (self.0 % n as u64) as usize
    }
}

const COMMANDS: [&str; 5] = ["11101", "101100001", "101100010", "101100100", "101101000"];

/// The zeros asked after a command, if another follows.
fn asked(last: usize, next: usize) -> usize {
    match (last, next) {
        (4, 0) => 4,
        (_, 0) => 0,
        (1, _) => 2,
        (2, _) => 1,
        _ => 0,
    }
}

fn stream(r: &mut Random) -> Vec<u8> {
    let mut bits = vec![b'0'; r.below(9)];
    let mut last = 0;
    for _ in 0..r.below(400) {
        let next = r.below(5);
        let spare = [0, 0, 0, 1, r.below(30)][r.below(5)];
        bits.resize(bits.len() + asked(last, next) + spare, b'0');
        bits.extend(COMMANDS[next].bytes());
        last = next;
    }
    bits.resize(bits.len() + r.below(9), b'0');
    bits
}

fn packed(bits: &[u8]) -> Vec<u8> {
    let byte = |b: &[u8]| (0..8).fold(0, |n, k| n << 1 | (b.get(k) == Some(&b'1')) as u8);
    bits.chunks(8).map(byte).collect()
}

#[test]
fn long_streams_clean_and_flawed() {
    let mut r = Random(0x5EED_0F08);
    let mut numbers = [0; 16];
    for n in 0..20_000 {
        let mut bits = stream(&mut r);
        let clean = n % 4 == 0;
        if !clean && !bits.is_empty() {
            let at = r.below(bits.len());
            match n % 4 {
                1 => bits[at] ^= 1,
                2 => drop(bits.remove(at)),
                _ => bits.truncate(at),
            }
        }
        let input = packed(&bits);
        let first = if clean { 0 } else { r.below(bits.len() + 1) };
        let count = bits.len() - first;
        let answer = told(&input, first, count);
        assert_eq!(answer, expected(&input, first, count), "stream {n}");
        assert!(!clean || answer == (0, 0), "stream {n}");
        numbers[answer.0 as usize] += 1;
    }
    assert!(
        [0, 13, 14, 15].iter().all(|&k| numbers[k] > 50),
        "{numbers:?}"
    );
}
