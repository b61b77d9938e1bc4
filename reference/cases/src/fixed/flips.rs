//! An LV1 with each of its bits hit (document 02, F-1): in and out of
//! RunMode, straight after every command, and cut by the ends of lines and of
//! blocks.

use super::{in_run_mode, run_mode_name};
use crate::code::{self, FLIPPED_LV1, LV1_TAIL};
use crate::{Case, Stream};

/// Cycles of a full line, and bytes with its line feed.
const LINE: usize = 256;
const LINE_BYTES: usize = LINE / 4 + 1;

/// Bytes that a program reads at a time.
const BLOCK: usize = 65_536;

pub fn cases() -> Vec<Case> {
    [true, false].into_iter().flat_map(in_mode).collect()
}

fn in_mode(run_mode: bool) -> Vec<Case> {
    let name = |name: &str| format!("flips/{name}-{}", run_mode_name(run_mode));
    let mut cases = vec![
        Case::stream(name("positions"), &positions(run_mode)).golden_if(true),
        Case::new(name("cut-by-lines"), cut_by_lines(run_mode)),
        Case::stream(name("cut-by-blocks"), &cut_by_blocks(run_mode)),
    ];
    for (command, ahead) in commands() {
        let after = straight_after(&ahead, run_mode);
        cases.push(Case::stream(name(&format!("after-{command}")), &after));
    }
    cases
}

/// Each bit hit, between two exact ones, and last of all the window's 0 in
/// place of the first.
fn positions(run_mode: bool) -> Stream {
    let stream = in_run_mode(run_mode).zeros(7).lv1();
    let hit = |stream: Stream, bits: &&str| stream.zeros(11).pattern(bits);
    let stream = FLIPPED_LV1.iter().fold(stream, hit);
    stream.zeros(11).lv1().pattern(LV1_TAIL)
}

/// Each bit hit, straight after a command. A Slow among them ends RunMode.
fn straight_after(command: &Stream, run_mode: bool) -> Stream {
    let hits = FLIPPED_LV1.into_iter().chain([LV1_TAIL]);
    hits.fold(Stream::new(), |stream, bits| {
        let stream = stream.raw(&in_run_mode(run_mode).bits);
        stream.raw(&command.bits).pattern(bits).zeros(5)
    })
}

/// A command of each kind, by name, and the two kinds of error.
fn commands() -> Vec<(&'static str, Stream)> {
    let frame = Stream::new().number(0xA5, 8).bits;
    // Eight data bits, or the eight bits of a WrReceiver.
    let data = Stream::new().wr_register(5, 8 << 3);
    let receiver = Stream::new().wr_register(5, 1);
    let new = Stream::new;
    vec![
        ("lv1", new().lv1()),
        ("lv1-with-flip", new().pattern("11100")),
        ("bcr", new().bcr()),
        ("ecr", new().ecr()),
        ("cal", new().cal()),
        ("sync", new().sync()),
        ("bad-fast", new().fast(0b1111)),
        ("wr-register", new().wr_register(2, 0xFFFF)),
        ("rd-register", new().rd_register(2)),
        ("wr-fifo", new().wr_fifo(0x07FF_FFFF)),
        ("rd-fifo", new().rd_fifo(15)),
        (
            "wr-front-end",
            data.clone().front_end(code::WR_FRONT_END, &frame),
        ),
        ("rd-front-end", data.front_end(code::RD_FRONT_END, &frame)),
        ("wr-receiver", receiver.wr_receiver(&frame)),
        ("en-data-take", new().en_data_take()),
        ("global-reset-mcc", new().reset_mcc()),
        ("global-reset-fe", new().reset_fe(0b1111)),
        ("bad-slow", new().slow(0b1111, 0b1111)),
    ]
}

/// A byte a line, with each LV1 at each place of its first byte, so that
/// lines end after each of its bits.
fn cut_by_lines(run_mode: bool) -> Vec<u8> {
    let mut stream = in_run_mode(run_mode);
    for bits in FLIPPED_LV1 {
        for place in 0..8 {
            let ahead = (place + 8 - stream.bits.len() % 8) % 8;
            stream = stream.zeros(ahead).pattern(bits);
        }
    }
    let line = |byte: &u8| format!("{byte:02X}\n").into_bytes();
    stream.bytes().iter().flat_map(line).collect()
}

/// Bits of each LV1 that stand ahead of a block's edge.
const AHEAD: [usize; 5] = [1, 2, 3, 4, 2];

/// An LV1 across the edge of each block: within a line, at the end of one and
/// between the two digits of a byte.
fn cut_by_blocks(run_mode: bool) -> Stream {
    let mut stream = in_run_mode(run_mode);
    for ((block, bits), ahead) in (1..).zip(FLIPPED_LV1).zip(AHEAD) {
        let edge = BLOCK * block;
        // Four bits a digit; a line feed has none.
        let edge = edge / LINE_BYTES * LINE + edge % LINE_BYTES * 4;
        let idle = edge - ahead - stream.bits.len();
        stream = stream.zeros(idle).pattern(bits);
    }
    stream
}
