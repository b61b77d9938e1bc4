//! Commands sent too close (document 02, F-5): every command after every
//! other with few zeros between, in and out of RunMode; frames by several
//! CNT, and by one just written; a GlobalResetMCC between; the entries of the
//! timing table; pairs that the ends of lines cut; and the first record.

use super::{in_run_mode, run_mode_name};
use crate::code::{self, FLIPPED_LV1, LV1_TAIL};
use crate::{Case, Stream};

/// Most zeros between two commands; the timing table asks for four at most.
const MOST_ZEROS: usize = 6;

/// Zeros after which nothing is too close.
const FAR: usize = 8;

/// CNT for most pairs: one data bit and eight control bits, or 72 bits of a
/// WrReceiver.
const CNT: u16 = 0x0009;

pub fn cases() -> Vec<Case> {
    let mut cases: Vec<Case> = [true, false].into_iter().flat_map(in_mode).collect();
    // With nothing ahead of it 1101 is not too close.
    let opening = Stream::new().pattern(LV1_TAIL).pattern(LV1_TAIL);
    cases.push(Case::stream("crowded/opening", &opening).golden_if(true));
    cases
}

fn in_mode(run_mode: bool) -> Vec<Case> {
    let name = |name: &str| format!("crowded/{name}-{}", run_mode_name(run_mode));
    let mut cases = Vec::new();
    for (first, _) in commands(CNT) {
        let pairs = after(first, run_mode);
        cases.push(Case::stream(name(&format!("after-{first}")), &pairs));
    }
    for (cnt, field3s) in FRAMES {
        let frames = frames(cnt, field3s, run_mode);
        cases.push(Case::stream(name(&format!("frames-{cnt:04X}")), &frames));
    }
    cases.push(Case::stream(name("cnt-written"), &cnt_written(run_mode)));
    let reset = reset_between(run_mode);
    cases.push(Case::stream(name("reset-mcc"), &reset).golden_if(true));
    let table = table(run_mode);
    cases.push(Case::stream(name("table"), &table).golden_if(true));
    cases.push(Case::new(name("cut-by-lines"), cut_by_lines(run_mode)));
    cases
}

/// A command of each kind, by name: the LV1 exact, with each bit hit, and as
/// the four bits that are one straight after a command; and both kinds of
/// error. The frames have the bits that CNT asks for.
fn commands(cnt: u16) -> Vec<(&'static str, Stream)> {
    const HIT: [&str; 5] = [
        "lv1-hit-1",
        "lv1-hit-2",
        "lv1-hit-3",
        "lv1-hit-4",
        "lv1-hit-5",
    ];
    let new = Stream::new;
    let hits = HIT
        .into_iter()
        .zip(FLIPPED_LV1.map(|bits| new().pattern(bits)));
    let mut commands = vec![
        ("lv1", new().lv1()),
        ("lv1-tail", new().pattern(LV1_TAIL)),
        ("bcr", new().bcr()),
        ("ecr", new().ecr()),
        ("cal", new().cal()),
        ("sync", new().sync()),
        ("bad-fast", new().fast(0b1111)),
        ("wr-register", new().wr_register(2, 0xFFFF)),
        ("rd-register", new().rd_register(2)),
        ("wr-fifo", new().wr_fifo(0x07FF_FFFF)),
        ("rd-fifo", new().rd_fifo(15)),
        ("wr-front-end", frame(code::WR_FRONT_END, cnt)),
        ("rd-front-end", frame(code::RD_FRONT_END, cnt)),
        ("wr-receiver", frame(code::WR_RECEIVER, cnt)),
        ("en-data-take", new().en_data_take()),
        (RESET, new().reset_mcc()),
        ("global-reset-fe", new().reset_fe(0b1111)),
        ("bad-slow", new().slow(0b1111, 0b1111)),
    ];
    commands.extend(hits);
    commands
}

/// The command that sets CNT to 0.
const RESET: &str = "global-reset-mcc";

fn command(name: &str, cnt: u16) -> Stream {
    let named = commands(cnt).into_iter().find(|(other, _)| *other == name);
    named.expect("a command's name").1
}

/// A frame of ones and zeros in turn, as long as CNT says.
fn frame(field3: u8, cnt: u16) -> Stream {
    let bits = |count: u32| (0..count).map(|n| n % 2 == 0).collect::<Vec<bool>>();
    if field3 == code::WR_RECEIVER {
        return Stream::new().wr_receiver(&bits(code::receiver_bits(cnt)));
    }
    Stream::new().front_end(field3, &bits(code::front_end_bits(cnt)))
}

/// CNT written, and RunMode as it is to be, both long ahead.
fn with_cnt(stream: Stream, cnt: u16, run_mode: bool) -> Stream {
    let stream = stream.zeros(FAR).wr_register(5, cnt).zeros(FAR);
    stream.raw(&in_run_mode(run_mode).bits).zeros(FAR)
}

/// Every command after one, with each count of zeros between.
fn after(first: &str, run_mode: bool) -> Stream {
    let cnt_after = if first == RESET { 0 } else { CNT };
    let mut stream = Stream::new();
    for (_, second) in commands(cnt_after) {
        for zeros in 0..=MOST_ZEROS {
            stream = with_cnt(stream, CNT, run_mode).raw(&command(first, CNT).bits);
            stream = stream.zeros(zeros).raw(&second.bits);
        }
    }
    stream.zeros(FAR)
}

/// CNT and the frames that are short by it: of no bits, of control bits, of
/// data bits, of both.
const FRAMES: [(u16, &[u8]); 7] = [
    (0x0000, ALL_FRAMES),
    (0x0001, ALL_FRAMES),
    (0x0008, ALL_FRAMES),
    (0x000F, ALL_FRAMES),
    (0x0010, ALL_FRAMES),
    (0xE000, &[code::WR_RECEIVER]),
    (0xE001, &[code::WR_RECEIVER]),
];
const ALL_FRAMES: &[u8] = &[code::WR_FRONT_END, code::RD_FRONT_END, code::WR_RECEIVER];

/// Frames after commands of each kind that asks for zeros, and others; each
/// with 1101 straight after it.
fn frames(cnt: u16, field3s: &[u8], run_mode: bool) -> Stream {
    let mut stream = Stream::new();
    for &field3 in field3s {
        for first in ["bcr", "ecr", "sync", "cal", "lv1", "bad-fast", "bad-slow"] {
            for zeros in 0..=3 {
                stream = with_cnt(stream, cnt, run_mode).raw(&command(first, cnt).bits);
                stream = stream.zeros(zeros).raw(&frame(field3, cnt).bits);
                stream = stream.pattern(LV1_TAIL);
            }
        }
    }
    stream.zeros(FAR)
}

/// A frame by the CNT that was written just ahead of it, after a BCR or ECR
/// that the writing itself is too close to.
fn cnt_written(run_mode: bool) -> Stream {
    let mut stream = Stream::new();
    for field3 in ALL_FRAMES {
        for (before, now) in [(0x0009, 0x0000), (0x0000, 0x0009), (0x0010, 0x0002)] {
            for zeros in 0..=2 {
                stream = with_cnt(stream, before, run_mode);
                stream = stream.bcr().zeros(zeros).wr_register(5, now);
                stream = stream.raw(&frame(*field3, now).bits).zeros(zeros);
                stream = stream.ecr().zeros(zeros).raw(&frame(*field3, now).bits);
                stream = stream.pattern(LV1_TAIL);
            }
        }
    }
    stream.zeros(FAR)
}

/// GlobalResetMCC after a command, too close or not, and commands straight
/// after it: it asks for nothing, and is remembered all the same.
fn reset_between(run_mode: bool) -> Stream {
    let mut stream = Stream::new();
    for (first, zeros) in [
        ("bcr", 1),
        ("bcr", 2),
        ("ecr", 0),
        ("ecr", 1),
        ("sync", 0),
        ("lv1", 0),
    ] {
        for second in ["bcr", "lv1", "lv1-tail"] {
            stream = stream.zeros(FAR).raw(&in_run_mode(run_mode).bits);
            stream = stream.zeros(FAR).raw(&command(first, 0).bits).zeros(zeros);
            stream = stream.reset_mcc().raw(&command(second, 0).bits);
        }
    }
    stream.zeros(FAR)
}

/// Each entry of the timing table that asks for zeros, with one fewer and
/// with as many, and entries that ask for none.
const TABLE: [(&str, &str, usize); 17] = [
    ("bcr", "cal", 1),
    ("bcr", "cal", 2),
    ("bcr", "bad-fast", 1),
    ("bcr", "bad-fast", 2),
    ("bcr", "lv1", 0),
    ("ecr", "bcr", 0),
    ("ecr", "bcr", 1),
    ("ecr", "lv1", 0),
    ("sync", "lv1", 3),
    ("sync", "lv1", 4),
    ("sync", "lv1-hit-2", 3),
    ("sync", "lv1-hit-2", 4),
    ("sync", "ecr", 0),
    ("cal", "sync", 0),
    ("bad-fast", "bcr", 0),
    ("lv1", "lv1", 0),
    ("lv1", "lv1-tail", 0),
];

fn table(run_mode: bool) -> Stream {
    let stream = in_run_mode(run_mode);
    let stream = TABLE.iter().fold(stream, |stream, (first, second, zeros)| {
        let stream = stream.zeros(FAR).raw(&command(first, 0).bits);
        stream.zeros(*zeros).raw(&command(second, 0).bits)
    });
    // What ends RunMode comes last.
    let slows = [("bcr", 1), ("bcr", 2), ("ecr", 0), ("ecr", 1)];
    let stream = slows.iter().fold(stream, |stream, (first, zeros)| {
        let stream = stream.zeros(FAR).raw(&in_run_mode(run_mode).bits);
        let stream = stream.zeros(FAR).raw(&command(first, 0).bits);
        stream.zeros(*zeros).slow(0b1111, 0)
    });
    stream.zeros(FAR)
}

/// A byte a line, with pairs that are just too close at each place of the
/// first's first byte, so that lines end after each of their bits.
fn cut_by_lines(run_mode: bool) -> Vec<u8> {
    let mut stream = in_run_mode(run_mode);
    for (first, second, zeros) in [
        ("bcr", "bcr", 1),
        ("sync", "lv1", 3),
        ("lv1", "lv1-tail", 0),
    ] {
        for place in 0..8 {
            let ahead = FAR + (place + 8 - stream.bits.len() % 8) % 8;
            stream = stream.zeros(ahead).raw(&command(first, 0).bits);
            stream = stream.zeros(zeros).raw(&command(second, 0).bits);
        }
    }
    let line = |byte: &u8| format!("{byte:02X}\n").into_bytes();
    stream.bytes().iter().flat_map(line).collect()
}
