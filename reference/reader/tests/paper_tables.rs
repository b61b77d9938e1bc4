//! Every row of the chip paper's Tables 1-1 to 1-9.

mod common;

use cases::Stream;
use cases::RECEIVED;
use common::{position, rec, stream, Reader};
use reader::{Recogniser, Record};

/// Table 1-1: name, Field 1, Field 2, kind of the record.
const CONTROL_COMMANDS: [(&str, &str, &str, Option<u8>); 6] = [
    ("LV1", "11101", "", Some(0x01)),
    ("BCR", "10110", "0001", Some(0x11)),
    ("ECR", "10110", "0010", Some(0x12)),
    ("CAL", "10110", "0100", Some(0x14)),
    ("SYNC", "10110", "1000", Some(0x18)),
    ("CMD", "10110", "1011", None),
];

#[test]
fn table_1_1() {
    for (name, field1, field2, kind) in CONTROL_COMMANDS {
        for run_mode in [true, false] {
            let mut reader = Reader::with_run_mode(run_mode);
            let bits = stream(field1).pattern(field2);
            let records = reader.read(&bits);
            let Some(kind) = kind else {
                assert_eq!(records, [], "{name}");
                let begun = Recogniser::Field3 {
                    held: 0,
                    received: 0,
                };
                assert_eq!(
                    (reader.state.recogniser, reader.state.run_mode),
                    (begun, false)
                );
                continue;
            };
            let time = bits.bits.len() as u64 - 1;
            let (flags, value) = match (kind, run_mode) {
                (_, false) => (0, 0),
                (0x01, true) => (0x05, time as u32),
                (_, true) => (0x01, 0),
            };
            assert_eq!(records, [rec(time, kind, flags, value)], "{name}");
            assert_eq!(reader.state.recogniser, Recogniser::IDLE, "{name}");
        }
    }
}

/// The length of Field 5 in Table 1-2.
#[derive(Clone, Copy)]
enum Bits {
    Fixed(u64),
    /// Note 3: CNT<15:3> x 8 + CNT<2:0> x 64.
    FrontEnd,
    /// Note 4: CNT<12:0> x 8.
    Receiver,
}

/// Table 1-2: name, Field 3, length of Field 5, and the record's flags and
/// value for Field 4 = 6, Field 5 ones only and all registers 0 but CNT.
type SlowRow = (&'static str, &'static str, Bits, fn(u16) -> u32);
const SLOW_COMMANDS: [SlowRow; 10] = [
    ("WrRegister", "0000", Bits::Fixed(16), |_| 0x0006_FFFF),
    ("RdRegister", "0001", Bits::Fixed(16), |_| 0x0006_0000),
    ("WrFifo", "0010", Bits::Fixed(27), |_| 0x07FF_FFFF),
    ("RdFifo", "0011", Bits::Fixed(27), |_| 0x3000_0000),
    ("WrFrontEnd", "0100", Bits::FrontEnd, frame_value),
    ("RdFrontEnd", "0101", Bits::FrontEnd, frame_value),
    ("WrReceiver", "0110", Bits::Receiver, |cnt| {
        u32::from(cnt % 8_192) * 8
    }),
    ("EnDataTake", "1000", Bits::Fixed(0), |_| 0),
    ("GlobalResetMCC", "1001", Bits::Fixed(0), |_| 0),
    ("GlobalResetFE", "1010", Bits::Fixed(4), |_| 31),
];

fn frame_value(cnt: u16) -> u32 {
    u32::from(cnt % 8) * 8 * 65_536 + u32::from(cnt / 8)
}

fn cycles(bits: Bits, cnt: u16) -> u64 {
    let cnt = u64::from(cnt);
    match bits {
        Bits::Fixed(length) => length,
        Bits::FrontEnd => cnt / 8 * 8 + cnt % 8 * 64,
        Bits::Receiver => cnt % 8_192 * 8,
    }
}

const CNTS: [u16; 12] = [
    0, 1, 2, 7, 8, 9, 0x0040, 0x1FFF, 0x2000, 0xE000, 0xFFF8, 0xFFFF,
];

#[test]
fn table_1_2() {
    for (name, field3, bits, value) in SLOW_COMMANDS {
        for cnt in CNTS {
            let length = cycles(bits, cnt);
            let mut reader = Reader::running();
            reader.state.registers[5] = cnt;
            let command = stream("10110 1011").pattern(field3).pattern("0110");
            let command = command.raw(&vec![true; length as usize]);
            let kind = 0x20 + u8::from_str_radix(field3, 2).unwrap();
            let last = 16 + length;
            // An LV1 straight after shows that the field ends there.
            let records = reader.read(&command.lv1());
            let running = name == "EnDataTake";
            let after = if running {
                rec(last + 5, 0x01, 0x05, last as u32 + 5)
            } else {
                rec(last + 5, 0x01, 0, 0)
            };
            assert_eq!(
                records,
                [rec(last, kind, 0x01, value(cnt)), after],
                "{name} {cnt:04X}"
            );
            assert_eq!(reader.state.run_mode, running, "{name}");
        }
    }
}

#[test]
fn table_1_2_has_no_other_command() {
    for field3 in [0b0111, 0b1011, 0b1100, 0b1101, 0b1110, 0b1111] {
        let mut reader = Reader::running();
        let records = reader.read(&Stream::new().slow(field3, 6).lv1());
        let bad = rec(16, 0x2F, 0, u32::from(field3));
        assert_eq!(records, [bad, rec(21, 0x01, 0, 0)]);
        assert!(reader.state.warnings.wslw && !reader.state.run_mode);
    }
}

/// Table 1-3: commands, following commands, distance. The row of Slow has no
/// number; its text says that Fast or Trigger can follow without any gap.
const TIMING: [(&[&str], &[&str], usize); 8] = [
    (&["LV1"], &["LV1"], 0),
    (&["LV1"], &["BCR", "ECR", "CAL", "SYNC", "EnDataTake"], 0),
    (&["BCR", "ECR", "CAL"], &["LV1"], 0),
    (&["SYNC"], &["LV1"], 4),
    (&["BCR"], &["BCR", "ECR", "CAL", "SYNC", "EnDataTake"], 2),
    (
        &["CAL", "SYNC"],
        &["BCR", "ECR", "CAL", "SYNC", "EnDataTake"],
        0,
    ),
    (&["ECR"], &["BCR", "ECR", "CAL", "SYNC", "EnDataTake"], 1),
    (
        &["EnDataTake"],
        &["LV1", "BCR", "ECR", "CAL", "SYNC", "EnDataTake"],
        0,
    ),
];

fn command(name: &str) -> (&'static str, u8) {
    match name {
        "LV1" => ("11101", 0x01),
        "BCR" => ("101100001", 0x11),
        "ECR" => ("101100010", 0x12),
        "CAL" => ("101100100", 0x14),
        "SYNC" => ("101101000", 0x18),
        "EnDataTake" => ("10110101110000000", 0x28),
        _ => panic!("{name}"),
    }
}

#[test]
fn table_1_3() {
    let mut pairs = 0;
    for (firsts, seconds, distance) in TIMING {
        for first in firsts {
            for second in seconds {
                pairs += 1;
                // Without errors less distance does no harm.
                for zeros in 0..=distance + 1 {
                    let ((a, kind_a), (b, kind_b)) = (command(first), command(second));
                    let bits = stream(a).zeros(zeros).pattern(b);
                    let records: Vec<(u64, u8, u8)> = Reader::running()
                        .read(&bits)
                        .iter()
                        .map(|record| (record.time, record.kind, record.flags & 0x03))
                        .collect();
                    let ends = (a.len() - 1, a.len() + zeros + b.len() - 1);
                    let expected = [(ends.0 as u64, kind_a, 1), (ends.1 as u64, kind_b, 1)];
                    assert_eq!(records, expected, "{first} {zeros} {second}");
                }
            }
        }
    }
    assert_eq!(pairs, 36);
}

/// A row of Tables 1-4 to 1-9: the received pattern; each recognised command
/// in the paper's words, with the cycle at which "Hunting" records it (the
/// pattern's first digit is cycle 0).
type Row = (&'static str, &'static [(&'static str, u64)]);
const FLIP: &str = "LV1 (w. bit-flip)";
const BAD: &str = "bad Fast command";

const TABLE_1_4: [Row; 10] = [
    ("0000_11101_00", &[("LV1", 8)]),
    ("0000_11101_10", &[("LV1", 8)]),
    ("0000_11100_00", &[(FLIP, 8)]),
    ("0000_11111_00", &[(FLIP, 8)]),
    ("0000_11001_00", &[(FLIP, 8)]),
    ("0000_10101_00", &[(FLIP, 8)]),
    ("0000_01101_00", &[(FLIP, 8)]),
    ("0001_11101_00", &[("LV1", 8)]),
    ("0010_11101_00", &[("LV1", 8)]),
    ("0100_11101_00", &[("LV1", 8)]),
];

const TABLE_1_5: [Row; 14] = [
    ("0000_10110.0001_00", &[("BCR", 12)]),
    ("0000_10110.0001_10", &[("BCR", 12)]),
    ("0000_10110.0000_00", &[(BAD, 12)]),
    ("0000_10110.0011_00", &[(BAD, 12)]),
    ("0000_10110.0101_00", &[(BAD, 12)]),
    ("0000_10110.1001_00", &[(BAD, 12)]),
    ("0000_10111.0001_00", &[(FLIP, 10)]),
    ("0000_10100.0001_00", &[]),
    ("0000_10010.0001_00", &[]),
    ("0000_11110.0001_00", &[(FLIP, 9)]),
    ("0000_00110.0001_00", &[]),
    ("0001_10110.0001_00", &[(FLIP, 6)]),
    ("0010_10110.0001_00", &[(FLIP, 6)]),
    ("0100_10110.0001_00", &[("BCR", 12)]),
];

const TABLE_1_6: [Row; 14] = [
    ("0000_10110.0100_00", &[("CAL", 12)]),
    ("0000_10110.0100_10", &[("CAL", 12)]),
    ("0000_10110.0101_00", &[(BAD, 12)]),
    ("0000_10110.0110_00", &[(BAD, 12)]),
    ("0000_10110.0000_00", &[(BAD, 12)]),
    ("0000_10110.1100_00", &[(BAD, 12)]),
    ("0000_10111.0100_00", &[("LV1", 10)]),
    ("0000_10100.0100_00", &[]),
    ("0000_10010.0100_00", &[]),
    ("0000_11110.0100_00", &[(FLIP, 9)]),
    ("0000_00110.0100_00", &[(FLIP, 10)]),
    ("0001_10110.0100_00", &[(FLIP, 6)]),
    ("0010_10110.0100_00", &[(FLIP, 6)]),
    ("0100_10110.0100_00", &[("CAL", 12)]),
];

const TABLE_1_7: [Row; 14] = [
    ("0000_10110.0010_00", &[("ECR", 12)]),
    ("0000_10110.0010_10", &[("ECR", 12)]),
    ("0000_10110.0011_00", &[(BAD, 12)]),
    ("0000_10110.0000_00", &[(BAD, 12)]),
    ("0000_10110.0110_00", &[(BAD, 12)]),
    ("0000_10110.1010_00", &[(BAD, 12)]),
    ("0000_10111.0010_00", &[(FLIP, 10)]),
    ("0000_10100.0010_00", &[]),
    ("0000_10010.0010_00", &[]),
    ("0000_11110.0010_00", &[(FLIP, 9)]),
    ("0000_00110.0010_00", &[]),
    ("0001_10110.0010_00", &[(FLIP, 6)]),
    ("0010_10110.0010_00", &[(FLIP, 6)]),
    ("0100_10110.0010_00", &[("ECR", 12)]),
];

const TABLE_1_8: [Row; 14] = [
    ("0000_10110.1000_00", &[("SYNC", 12)]),
    ("0000_10110.1000_10", &[("SYNC", 12)]),
    ("0000_10110.1001_00", &[(BAD, 12)]),
    ("0000_10110.1010_00", &[(BAD, 12)]),
    ("0000_10110.1100_00", &[(BAD, 12)]),
    ("0000_10110.0000_00", &[(BAD, 12)]),
    ("0000_10111.1000_00", &[(FLIP, 11)]),
    ("0000_10100.1000_00", &[]),
    ("0000_10010.1000_00", &[]),
    ("0000_11110.1000_00", &[("LV1", 9)]),
    ("0000_00110.1000_00", &[(FLIP, 9)]),
    ("0001_10110.1000_00", &[(FLIP, 6)]),
    ("0010_10110.1000_00", &[(FLIP, 6)]),
    ("0100_10110.1000_00", &[("SYNC", 12)]),
];

/// The Slow header is recognised with its ninth bit; the "(bad) Fast" has its
/// header by then and the body still to come.
const TABLE_1_9: [Row; 14] = [
    ("0000_10110.1011", &[("Slow", 12)]),
    ("0000_10110.1011_10", &[("Slow", 12)]),
    ("0000_10110.1010_00", &[(BAD, 12)]),
    ("0000_10110.1001_00", &[(BAD, 12)]),
    ("0000_10110.1111_00", &[(BAD, 12)]),
    ("0000_10110.0011_00", &[(BAD, 12)]),
    ("0000_10111.1011_00", &[("LV1", 11)]),
    ("0000_10100.1011_00", &[("(bad) Fast command", 13)]),
    ("0000_10010.1011_00", &[(FLIP, 11)]),
    ("0000_11110.1011_00", &[("LV1", 9)]),
    ("0000_00110.1011_00", &[(FLIP, 9)]),
    ("0001_10110.1011_00", &[(FLIP, 6), (FLIP, 11)]),
    ("0010_10110.1011_00", &[(FLIP, 6), (FLIP, 11)]),
    ("0100_10110.1011_00", &[("Slow", 12)]),
];

/// The records that a row's words stand for, read from cycle 0.
fn expected(pattern: &[bool], recognised: &[(&str, u64)], run_mode: bool) -> Vec<Record> {
    let mut l1id = 0;
    let mut lv1 = |time: u64, flip: u8| {
        // Its five bits are its own: no command ends within them.
        let position = position(&pattern[time as usize - 4..=time as usize]).expect("an LV1");
        assert_eq!(position != 0, flip != 0, "the paper's word for it");
        let counters = if run_mode {
            l1id * 256 + time as u32
        } else {
            0
        };
        l1id += 1;
        let flags = flip | if run_mode { 0x05 } else { 0 };
        rec(time, 0x01, flags, position * 65_536 + counters)
    };
    let mut records = Vec::new();
    for &(name, time) in recognised {
        records.push(match name {
            "LV1" => lv1(time, 0),
            FLIP => lv1(time, 2),
            BAD => {
                let body = &pattern[time as usize - 3..=time as usize];
                let body = body.iter().fold(0, |n, &bit| n * 2 + u32::from(bit));
                rec(time, 0x1F, 0, body)
            }
            "Slow" | "(bad) Fast command" => continue,
            fast => rec(time, command(fast).1, u8::from(run_mode), 0),
        });
    }
    records
}

#[test]
fn tables_1_4_to_1_9() {
    let tables: [&[Row]; 6] = [
        &TABLE_1_4, &TABLE_1_5, &TABLE_1_6, &TABLE_1_7, &TABLE_1_8, &TABLE_1_9,
    ];
    for ((table, rows), (same_table, received)) in (4..).zip(tables).zip(RECEIVED) {
        // The cases for comparison have the same patterns.
        assert_eq!(table, same_table);
        assert!(rows.iter().map(|(pattern, _)| pattern).eq(received));
        for (received, recognised) in rows {
            for run_mode in [true, false] {
                let context = format!("table 1-{table}, {received}, RunMode {run_mode}");
                let bits = stream(received);
                let mut reader = Reader::with_run_mode(run_mode);
                let records = reader.read(&bits);
                assert_eq!(
                    records,
                    expected(&bits.bits, recognised, run_mode),
                    "{context}"
                );

                let has = |name: &str| recognised.iter().any(|(other, _)| *other == name);
                let state = reader.state;
                assert_eq!(state.warnings.wlv1, has(FLIP), "{context}");
                assert_eq!(state.warnings.wfst, has(BAD), "{context}");
                assert!(!state.warnings.wslw, "{context}");
                let inside_slow = matches!(state.recogniser, Recogniser::Field3 { .. });
                assert_eq!(inside_slow, has("Slow"), "{context}");
                assert_eq!(state.run_mode, run_mode && !has("Slow"), "{context}");
                let inside_body = matches!(state.recogniser, Recogniser::Body { .. });
                assert_eq!(inside_body, has("(bad) Fast command"), "{context}");
            }
        }
    }
}

/// "Either a LV1, or a Fast command or a bad Fast command can be detected",
/// by what follows the damaged header.
#[test]
fn table_1_9_bad_fast_row_goes_on() {
    let first = |rest: &str| Reader::running().read(&stream("0000_10100.1011").pattern(rest))[0];
    let kind = |rest: &str| (first(rest).time, first(rest).kind);
    assert_eq!(kind("0 0001"), (17, 0x11));
    assert_eq!(kind("0 0010"), (17, 0x12));
    assert_eq!(kind("0 0100"), (17, 0x14));
    assert_eq!(kind("0 1000"), (17, 0x18));
    assert_eq!(kind("0 0000"), (17, 0x1F));
    assert_eq!(kind("0 0011"), (17, 0x1F));
    assert_eq!(kind("1 01"), (15, 0x01));
    assert_eq!(kind("1 00"), (15, 0x01));
    assert_eq!(
        (first("1 01").flags, first("1 01").value),
        (0x05, 0x0000_000F)
    );
    assert_eq!(
        (first("1 00").flags, first("1 00").value),
        (0x07, 0x0005_000F)
    );
}
