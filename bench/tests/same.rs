//! The proved taking call against the separate reader, from a fresh opening:
//! random commands, some with an inverted bit, random ranges, dirty buffers
//! and short lists. Every word and byte of the buffers is compared.

use bench::{take_fresh, Buffers};
use reader::{open, take, Plan};

/// xorshift, seeded, so that every run is the same.
struct Random(u64);

impl Random {
    fn next(&mut self) -> u64 {
        self.0 ^= self.0 << 13;
        self.0 ^= self.0 >> 7;
        self.0 ^= self.0 << 17;
        self.0
    }

    fn below(&mut self, n: u64) -> u64 {
        self.next() % n
    }
}

fn push(bits: &mut Vec<u8>, value: u64, width: u32) {
    bits.extend((0..width).rev().map(|k| (value >> k & 1) as u8));
}

fn slow(bits: &mut Vec<u8>, field3: u64, field4: u64) {
    push(bits, 0b1_0110_1011, 9);
    push(bits, field3 << 4 | field4, 8);
}

/// One command or some noise. Addresses 2 and 5 are FEEN and CNT.
fn command(bits: &mut Vec<u8>, r: &mut Random) {
    match r.below(14) {
        0 | 1 => push(bits, 0b11101, 5),
        2 => push(bits, 0b1_0110_0000 | 1 << r.below(4), 9),
        3 => push(bits, 0, r.below(9) as u32),
        4 => slow(bits, 8, 0),
        5 => {
            slow(bits, 0, r.below(16));
            push(bits, r.next(), 16);
        }
        6 => {
            slow(bits, 0, 5);
            push(bits, r.below(40), 16);
        }
        7 | 8 => {
            slow(bits, 2 + r.below(2), r.below(16));
            push(bits, r.next(), 27);
        }
        9 => {
            slow(bits, 4 + r.below(3), r.below(16));
            for _ in 0..r.below(300) {
                push(bits, 255 * r.below(2), 8);
            }
        }
        10 => slow(bits, r.below(16), r.below(16)),
        11 => {
            slow(bits, 0, 2);
            push(bits, r.next(), 16);
        }
        12 => {
            slow(bits, 1, r.below(16));
            push(bits, r.next(), 16);
        }
        _ => push(bits, r.next(), r.below(30) as u32),
    }
}

fn stream(r: &mut Random) -> Vec<u8> {
    let mut bits = Vec::new();
    for _ in 0..r.below(12) {
        command(&mut bits, r);
    }
    if r.below(3) == 0 && !bits.is_empty() {
        let k = r.below(bits.len() as u64) as usize;
        bits[k] ^= 1;
    }
    while bits.is_empty() || bits.len() % 8 != 0 {
        bits.push(r.below(2) as u8);
    }
    bits.chunks(8)
        .map(|b| b.iter().fold(0, |byte, bit| byte << 1 | bit))
        .collect()
}

#[test]
fn every_call_is_the_separate_readers() {
    let mut r = Random(88_172_645_463_325_252);
    let mut records = 0;
    for case in 0..100_000 {
        let input = stream(&mut r);
        let bits = 8 * input.len() as u64;
        let first = r.below(9).min(bits);
        let count = r.below(bits - first + 2);
        let words = r.below(40);
        let free = r.below(words + 2);
        let seed = r.next();
        let mut ours = Buffers {
            store: (0..2048u32)
                .map(|k| (seed as u32).wrapping_mul(k | 1))
                .collect(),
            tray: (0..8192u32)
                .map(|k| (seed >> 7) as u8 ^ (k * 37) as u8)
                .collect(),
            list: (0..words).map(|k| seed ^ k).collect(),
        };
        let mut theirs = ours.clone();
        let written = take_fresh(
            &input,
            first as usize,
            count as usize,
            &mut ours,
            free as usize,
        );
        let answer = take(
            open(Plan::DEFAULT, 0).1,
            &input,
            first,
            count,
            &mut theirs.store,
            &mut theirs.tray,
            &mut theirs.list,
            free,
        );
        assert_eq!(written.bits as u64, answer.bits_taken, "case {case}");
        assert_eq!(
            written.records as u64, answer.records_written,
            "case {case}"
        );
        assert!(ours == theirs, "case {case}: buffers differ");
        records += written.records;
    }
    assert!(records > 100_000);
}
