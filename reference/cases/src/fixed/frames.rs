//! Frames of every kind and of lengths about the edges.

use crate::{code, generate, Case, Random, Stream};

/// Longest frame, in bits, that has golden files.
const GOLDEN_BITS: u32 = 64;

/// Name and CNT of a front-end frame.
const FRONT_END: [(&str, u16); 9] = [
    ("0", 0),
    ("1", 1 << 3),
    ("7", 7 << 3),
    ("8", 8 << 3),
    ("8-control", 1),
    ("9", 9 << 3),
    ("9-mixed", 1 << 3 | 1),
    ("56-control", 7),
    ("8247", 0xFFFF),
];

/// Name and CNT of a WrReceiver.
const RECEIVER: [(&str, u16); 5] = [
    ("0", 0),
    ("0-high-cnt", 0xE000),
    ("8", 1),
    ("16-high-cnt", 0x6002),
    ("65528", 0xFFFF),
];

pub fn cases() -> Vec<Case> {
    let mut random = Random::new(4);
    let mut cases = Vec::new();
    for (kind, field3) in [("wr", code::WR_FRONT_END), ("rd", code::RD_FRONT_END)] {
        for (name, cnt) in FRONT_END {
            let length = code::front_end_bits(cnt);
            let frame = generate::bits(&mut random, length);
            let stream = with_cnt(cnt).front_end(field3, &frame).lv1();
            let case = Case::stream(format!("frames/{kind}-{name}"), &stream);
            cases.push(case.golden_if(length <= GOLDEN_BITS));
        }
        cases.extend((0..16).map(|wrong| unsteady(kind, field3, wrong)));
    }
    for (name, cnt) in RECEIVER {
        let length = code::receiver_bits(cnt);
        let frame = generate::bits(&mut random, length);
        let stream = with_cnt(cnt).wr_receiver(&frame).lv1();
        let case = Case::stream(format!("frames/receiver-{name}"), &stream);
        cases.push(case.golden_if(length <= GOLDEN_BITS));
    }
    let case = Case::stream("frames/long-then-short", &long_then_short());
    cases.push(case.golden_if(true));
    cases
}

fn with_cnt(cnt: u16) -> Stream {
    Stream::new().wr_register(5, cnt)
}

/// Two groups with one wrong cycle, then a steady frame.
fn unsteady(kind: &str, field3: u8, wrong: usize) -> Case {
    let mut stream = with_cnt(2 << 3).front_end(field3, &[true, false]);
    let first = stream.bits.len() - 16;
    stream.bits[first + wrong] ^= true;
    let stream = stream.front_end(field3, &[false, true]);
    let case = Case::stream(format!("frames/{kind}-unsteady-{wrong:02}"), &stream);
    // A group's first cycle, and another.
    case.golden_if([0, 9].contains(&wrong))
}

/// A short frame after a long one: nothing of the long one may remain.
fn long_then_short() -> Stream {
    with_cnt(4)
        .wr_receiver(&[true; 32])
        .wr_register(5, 3 << 3)
        .front_end(code::WR_FRONT_END, &[false, true, false])
        .wr_register(5, 1)
        .wr_receiver(&[false; 8])
        .front_end(code::RD_FRONT_END, &[true; 8])
}
