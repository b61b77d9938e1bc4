//! Which bit of an LV1 was hit (document 02, F-1).

mod common;

use cases::{fixed, generate, generated, Case, Random, Stream};
use common::{flagged, position, rec, stream, Reader};
use reader::window::{meaning, Meaning};
use reader::{reading, Recogniser, Record};
use std::collections::BTreeSet;

/// Document 01's LV1 windows, the exact one first, with document 02's
/// positions.
const LV1: [(&str, u32); 6] = [
    ("11101", 0),
    ("01101", 1),
    ("10101", 2),
    ("11001", 3),
    ("11111", 4),
    ("11100", 5),
];

/// Five bits, the first received first, of a window's number.
fn bits_of(window: u8) -> Vec<bool> {
    Stream::new().number(u32::from(window), 5).bits
}

/// The position that document 01's list and document 02 give a window.
fn listed(window: u8) -> Option<u32> {
    let row = LV1
        .iter()
        .find(|(bits, _)| stream(bits).bits == bits_of(window));
    row.map(|&(_, position)| position)
}

/// The record of an LV1; the bunch number counts from cycle 0.
fn lv1(time: u64, position: u32, run_mode: bool, l1id: u32) -> Record {
    let flip = if position == 0 { 0 } else { 0x02 };
    let hit = position * 65_536;
    if run_mode {
        let bunch = (time % 256) as u32;
        rec(time, 0x01, 0x05 | flip, hit + l1id * 256 + bunch)
    } else {
        rec(time, 0x01, flip, hit)
    }
}

#[test]
fn the_listed_windows_are_those_with_no_bit_or_one_hit() {
    for window in 0..32 {
        assert_eq!(listed(window), position(&bits_of(window)), "{window:05b}");
    }
}

/// No other window is an LV1, whatever bit the window dropped.
#[test]
fn every_window() {
    for (window, run_mode) in (0..32_u8).flat_map(|window| [(window, true), (window, false)]) {
        for dropped in [0, 0b10000] {
            let mut reader = Reader::with_run_mode(run_mode);
            reader.state.recogniser = Recogniser::Hunting {
                window: window >> 1 | dropped,
            };
            let records = reader.read(&Stream::new().raw(&[window & 1 == 1]));
            let expected = listed(window).map(|position| lv1(0, position, run_mode, 0));
            assert!(records.iter().eq(&expected), "{window:05b}: {records:?}");
            let warned = expected.is_some_and(|record| record.flags & 0x02 != 0);
            assert_eq!(reader.state.warnings.wlv1, warned, "{window:05b}");
            let header = Recogniser::Body {
                held: 0,
                received: 0,
            };
            let is_header = reader.state.recogniser == header;
            assert_eq!(is_header, window == 0b10110, "{window:05b}");
        }
    }
}

#[test]
fn numbers_beyond_five_bits_mean_nothing() {
    for window in 32..=255 {
        assert_eq!(meaning(window), Meaning::Nothing, "{window:08b}");
    }
}

/// The position is told, and the warning comes, in RunMode and out of it; the
/// counters are told and L1ID moves in RunMode only.
#[test]
fn in_and_out_of_run_mode() {
    for (bits, position) in LV1 {
        for run_mode in [true, false] {
            let mut reader = Reader::with_run_mode(run_mode);
            // Counters as large as they come leave the position alone.
            reader.state.l1id = 255;
            let records = reader.read(&Stream::new().zeros(251).pattern(bits));
            let expected = lv1(255, position, run_mode, 255);
            assert_eq!(records, [expected], "{bits}, RunMode {run_mode}");
            let value = position << 16 | if run_mode { 0xFFFF } else { 0 };
            assert_eq!(records[0].value, value, "{bits}, RunMode {run_mode}");
            assert_eq!(reader.state.l1id, if run_mode { 0 } else { 255 });
            assert_eq!(reader.state.warnings.wlv1, position != 0);
        }
    }
}

/// CSR bit 6 keeps an LV1 from the front ends; it was hit all the same.
#[test]
fn in_playback_mode() {
    for (bits, position) in LV1 {
        let mut reader = Reader::running();
        reader.state.registers[0] = 0x0040;
        let mut expected = lv1(4, position, true, 0);
        expected.flags &= !0x04;
        assert_eq!(reader.read(&stream(bits)), [expected], "{bits}");
    }
}

/// Everything after which the window is 00000, and whether RunMode, if it was
/// on, is on after it.
fn ahead() -> Vec<(&'static str, Stream, bool)> {
    let start = Stream::new;
    let frame = [true, false, true];
    vec![
        ("opening", start(), true),
        ("LV1", start().lv1(), true),
        ("LV1 with flip", stream("11111"), true),
        ("LV1 with its last bit hit", stream("11100"), true),
        ("BCR", start().bcr(), true),
        ("ECR", start().ecr(), true),
        ("CAL", start().cal(), true),
        ("SYNC", start().sync(), true),
        ("bad Fast", start().fast(0b1111), true),
        ("EnDataTake", start().en_data_take(), true),
        ("WrRegister", start().wr_register(2, 0xFFFF), false),
        ("RdRegister", start().rd_register(2), false),
        ("WrFifo", start().wr_fifo(0x07FF_FFFF), false),
        ("RdFifo", start().rd_fifo(3), false),
        ("empty WrFrontEnd", start().front_end(4, &[]), false),
        (
            "WrFrontEnd",
            start().wr_register(5, 3 << 3).front_end(4, &frame),
            false,
        ),
        (
            "RdFrontEnd",
            start().wr_register(5, 3 << 3).front_end(5, &frame),
            false,
        ),
        (
            "WrReceiver",
            start().wr_register(5, 1).wr_receiver(&[true; 8]),
            false,
        ),
        ("GlobalResetMCC", start().reset_mcc(), false),
        ("GlobalResetFE", start().reset_fe(15), false),
        ("bad Slow", start().slow(15, 15), false),
    ]
}

/// The window has none of the bits ahead: straight after a command, as after
/// an opening, 1101 has its first bit hit, which is the cleared 0.
#[test]
fn straight_after_every_command_and_an_opening() {
    for (name, ahead, stays) in ahead() {
        for run_mode in [true, false] {
            let running = run_mode && stays || name == "EnDataTake";
            for (bits, hit) in LV1.into_iter().chain([("1101", 1)]) {
                let mut reader = Reader::with_run_mode(run_mode);
                reader.read(&ahead);
                assert_eq!(reader.state.run_mode, running, "{name}");
                let (l1id, base) = (reader.state.l1id, reader.state.base_cycle);
                let time = (ahead.bits.len() + bits.len() - 1) as u64;
                let expected = Record {
                    time,
                    ..lv1(time - base, hit, running, l1id)
                };
                // 1101 is always too close, any LV1 after SYNC (document 02,
                // F-5); after an opening none is.
                let expected = flagged(reader.state.earlier, expected);
                let close = name != "opening" && (bits == "1101" || name == "SYNC");
                assert_eq!(expected.flags & 0x20 != 0, close, "{bits} after {name}");
                let records = reader.read(&stream(bits));
                assert_eq!(records, [expected], "{bits} after {name}");
            }
        }
    }
}

/// The window as a record at `time` saw it: the bits since the record before,
/// on top of zeros.
fn window_at(stream: &Stream, since: u64, time: u64) -> Vec<bool> {
    let since = since.max((time + 1).saturating_sub(5));
    let new = &stream.bits[since as usize..=time as usize];
    Stream::new().zeros(5 - new.len()).raw(new).bits
}

/// By the received bits alone, in streams of commands with flips and in noise.
#[test]
fn positions_of_random_streams() {
    let mut random = Random::new(11);
    let mut seen = [[0; 6]; 2];
    for round in 0..400 {
        let mut stream = generate::flipped_commands(&mut random, 60);
        generate::flip_some(&mut stream, &mut random, 40);
        if round % 2 == 1 {
            stream = Stream::new().raw(&generate::bits(&mut random, 2_000));
        }
        let mut since = 0;
        for record in Reader::with_run_mode(random.bit()).read(&stream) {
            if record.kind == 0x01 {
                let told = record.value >> 16;
                let window = window_at(&stream, since, record.time);
                assert_eq!(Some(told), position(&window), "{record:?}");
                assert_eq!(told != 0, record.flags & 0x02 != 0, "{record:?}");
                seen[usize::from(record.flags & 0x01)][told as usize] += 1;
            }
            since = record.time + 1;
        }
    }
    // Every position in and out of RunMode.
    assert!(seen.concat().iter().all(|&count| count > 40), "{seen:?}");
}

/// The records of a case's listing.
fn listed_records(case: &Case) -> Vec<Record> {
    let mut listing = Vec::new();
    reading(&case.input[..], &mut listing).unwrap();
    let listing = String::from_utf8(listing).unwrap();
    let number = |text: &str| u64::from_str_radix(text, 16).unwrap();
    let record = |line: &str| {
        let (kind, flags) = (number(&line[13..15]) as u8, number(&line[16..18]) as u8);
        rec(number(&line[..12]), kind, flags, number(&line[19..]) as u32)
    };
    listing.lines().map(record).collect()
}

/// An LV1 as the cases vary it: its position, whether it is acted on, and the
/// cycles since the record ahead of it, if they are 5 at most.
type Varied = (u32, bool, Option<u64>);

fn varied(case: &Case) -> Vec<Varied> {
    let mut ahead = None;
    let mut found = Vec::new();
    for record in listed_records(case) {
        if record.kind == 0x01 {
            let cycles = ahead.map(|ahead| record.time - ahead);
            let cycles = cycles.filter(|&cycles| cycles <= 5);
            found.push((record.value >> 16, record.flags & 0x01 == 1, cycles));
        }
        ahead = Some(record.time);
    }
    found
}

fn flips() -> Vec<Case> {
    let mut cases = fixed();
    cases.retain(|case| case.name.starts_with("flips/"));
    cases
}

/// The cases for comparison have every position, in and out of RunMode,
/// straight after another command and not.
#[test]
fn the_cases_have_every_position() {
    for cases in [flips(), generated(18)] {
        let seen: BTreeSet<Varied> = cases.iter().flat_map(varied).collect();
        for acted_on in [true, false] {
            for position in 1..=5 {
                for cycles in [Some(5), None] {
                    assert!(seen.contains(&(position, acted_on, cycles)), "{seen:?}");
                }
            }
            // 1101 straight after a command, the only one that is as short.
            assert!(seen.contains(&(1, acted_on, Some(4))), "{seen:?}");
        }
        let short = |&&(_, _, cycles): &&Varied| cycles.is_some_and(|cycles| cycles < 5);
        assert!(seen
            .iter()
            .filter(short)
            .all(|&(position, ..)| position == 1));
    }
}

/// The cases of flips have the positions that their names promise.
#[test]
fn the_cases_of_flips_are_what_they_should_be() {
    for (name, positions) in [
        ("flips/positions", vec![0, 1, 2, 3, 4, 5, 0, 1]),
        ("flips/cut-by-lines", (8..48).map(|n| n / 8).collect()),
        ("flips/cut-by-blocks", vec![1, 2, 3, 4, 5]),
    ] {
        for (mode, acted_on) in [("run", true), ("idle", false)] {
            let name = format!("{name}-{mode}");
            let case = flips().into_iter().find(|case| case.name == name);
            let lv1 = varied(&case.expect("a case")).into_iter();
            let told = lv1.map(|(position, acted_on, _)| (position, acted_on));
            let expected = positions.iter().map(|&position| (position, acted_on));
            assert!(told.eq(expected), "{name}");
        }
    }
}

/// Each block of 65,536 bytes ends within an LV1.
#[test]
fn the_blocks_end_within_an_lv1() {
    let blocks = flips().into_iter();
    for case in blocks.filter(|case| case.name.contains("cut-by-blocks")) {
        let mut lv1 = listed_records(&case);
        lv1.retain(|record| record.kind == 0x01);
        for (block, record) in (1..).zip(lv1) {
            let digits = case.input[..65_536 * block].iter().filter(|&&c| c != b'\n');
            let bits = 4 * digits.count() as u64;
            let first = record.time - 4;
            assert!(first < bits && bits <= record.time, "block {block}");
        }
    }
}
