//! Lists of orders whose streams are about one mebibyte, as words and frames.

use crate::streams::BYTES;

pub struct List {
    pub name: &'static str,
    pub words: Vec<u64>,
    pub frames: Vec<u8>,
    /// The calls in which the stream is read: a call stops after a frame.
    pub frame_count: usize,
}

/// A command without fields, with zeros ahead.
fn plain(kind: u64, zeros: u64) -> [u64; 6] {
    [kind, zeros, 0, 0, 0, 0]
}

pub fn all() -> [List; 4] {
    [
        zeros(),
        dense(),
        frames("front-end frames", 0x24, 8_247, 17 + 8 * 8_247),
        frames("receiver frames", 0x26, 65_528, 17 + 65_528),
    ]
}

fn zeros() -> List {
    let words = plain(0x01, 8 * BYTES as u64 - 5).to_vec();
    List {
        name: "zeros",
        words,
        frames: Vec::new(),
        frame_count: 0,
    }
}

/// As dense as the timing table allows, behind an EnDataTake.
fn dense() -> List {
    let commands = [
        (0x01, 0, 5),
        (0x11, 0, 9),
        (0x14, 2, 11),
        (0x01, 0, 5),
        (0x18, 0, 9),
        (0x12, 0, 9),
        (0x01, 0, 5),
    ];
    let mut words = plain(0x28, 0).to_vec();
    let mut bits = 17;
    for (kind, zeros, long) in commands.into_iter().cycle() {
        bits += long;
        if bits > 8 * BYTES {
            break;
        }
        words.extend(plain(kind, zeros));
    }
    List {
        name: "dense",
        words,
        frames: Vec::new(),
        frame_count: 0,
    }
}

/// The longest frames, CNT FFFF, all with the bits of one.
fn frames(name: &'static str, kind: u64, bits: u64, cycles: usize) -> List {
    let count = (8 * BYTES - 33) / cycles;
    let mut words = vec![0x20, 0, 5, 0xFFFF, 0, 0];
    for _ in 0..count {
        words.extend([kind, 0, 0, 0, 0, bits]);
    }
    let frames = (0..bits.div_ceil(8))
        .map(|n| (n * 37 % 251) as u8)
        .collect();
    List {
        name,
        words,
        frames,
        frame_count: count,
    }
}
