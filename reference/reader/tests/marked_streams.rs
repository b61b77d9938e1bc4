//! Document 01's "Streams with their records": marked streams, edges, listing.

mod common;

use cases::Stream;
use common::{rec, stream, Reader};
use reader::limits::CLOCK_LIMIT;
use reader::{open, station, Ending, Plan, Record};

/// A record as the table has it: what it is, and at which cycle.
#[derive(Clone, Copy)]
enum Expected {
    Exact(u64),
    /// The position of the bit that was hit (document 02, F-1), then the
    /// cycle.
    Flip(u32, u64),
    /// The same, too close to the record before (document 02, F-5).
    CloseFlip(u32, u64),
    Bcr(u64),
    BadFast(u32, u64),
    BadSlow(u32, u64),
    /// Kind 24, 0 bits.
    EmptyFrame(u64),
}
use Expected::*;

/// Bits and records, from cycle 0, RunMode, window 00000 (and CNT 0).
const MARKED: [(&str, &[Expected]); 14] = [
    ("11101", &[Exact(4)]),
    ("11100", &[Flip(5, 4)]),
    ("000111101", &[Exact(8)]),
    ("11110", &[]),
    ("1110111101", &[Exact(4), Exact(9)]),
    ("111011101", &[Exact(4), CloseFlip(1, 8)]),
    ("101100001", &[Bcr(8)]),
    ("101101001", &[BadFast(9, 8)]),
    ("101110100", &[Exact(6)]),
    ("111101000", &[Exact(5)]),
    ("001100100", &[Flip(3, 6)]),
    ("0010101101011", &[Flip(2, 6), Flip(2, 11)]),
    ("10110101110110000", &[BadSlow(11, 16)]),
    ("10110101101000000", &[EmptyFrame(16)]),
];

fn records_of(row: &[Expected]) -> Vec<Record> {
    let mut l1id = 0;
    let mut lv1 = |time: u64, flags, position| {
        let value = position * 65_536 + l1id * 256 + time as u32;
        l1id += 1;
        rec(time, 0x01, flags, value)
    };
    row.iter()
        .map(|&expected| match expected {
            Exact(time) => lv1(time, 0x05, 0),
            Flip(position, time) => lv1(time, 0x07, position),
            CloseFlip(position, time) => lv1(time, 0x27, position),
            Bcr(time) => rec(time, 0x11, 0x01, 0),
            BadFast(body, time) => rec(time, 0x1F, 0, body),
            BadSlow(field3, time) => rec(time, 0x2F, 0, field3),
            EmptyFrame(time) => rec(time, 0x24, 0x01, 0),
        })
        .collect()
}

#[test]
fn marked_streams_in_one_call() {
    for (bits, row) in MARKED {
        assert_eq!(
            Reader::running().read(&stream(bits)),
            records_of(row),
            "{bits}"
        );
    }
}

/// The values that document 02, F-1, changes, digit by digit.
#[test]
fn marked_streams_with_a_position() {
    for (bits, values) in [
        ("11100", &[0x0005_0004][..]),
        ("111011101", &[0x0000_0004, 0x0001_0108]),
        ("001100100", &[0x0003_0006]),
        ("0010101101011", &[0x0002_0006, 0x0002_010B]),
    ] {
        let records = Reader::running().read(&stream(bits));
        assert!(
            records.iter().map(|record| &record.value).eq(values),
            "{bits}"
        );
    }
}

/// The flags of every record, digit by digit. Only 1101 straight after a
/// command has flag 20 (document 02, F-5).
#[test]
fn flags_of_the_marked_streams() {
    let flags: [&[u8]; 14] = [
        &[0x05],
        &[0x07],
        &[0x05],
        &[],
        &[0x05, 0x05],
        &[0x05, 0x27],
        &[0x01],
        &[0x00],
        &[0x05],
        &[0x05],
        &[0x07],
        &[0x07, 0x07],
        &[0x00],
        &[0x01],
    ];
    for ((bits, _), flags) in MARKED.into_iter().zip(flags) {
        let records = Reader::running().read(&stream(bits));
        let told = records.iter().map(|record| record.flags);
        assert!(told.eq(flags.iter().copied()), "{bits}");
    }
}

#[test]
fn marked_streams_cut_at_every_place() {
    for (bits, row) in MARKED {
        let bytes = stream(bits).bytes();
        let count = bits.len() as u64;
        let mut whole = Reader::running();
        whole.read_part(&bytes, 0, count, 10);
        for cut in 0..=count {
            let mut reader = Reader::running();
            let mut records = reader.read_part(&bytes, 0, cut, 10);
            records.extend(reader.read_part(&bytes, cut, count - cut, 10));
            assert_eq!(records, records_of(row), "{bits} cut at {cut}");
            assert_eq!(reader, whole, "{bits} cut at {cut}");
        }
        // Cut at every place at once.
        let mut reader = Reader::running();
        let records: Vec<Record> = (0..count)
            .flat_map(|bit| reader.read_part(&bytes, bit, 1, 1))
            .collect();
        assert_eq!(records, records_of(row), "{bits} bit by bit");
        assert_eq!(reader, whole, "{bits} bit by bit");
    }
}

#[test]
fn the_longest_front_end_frame() {
    let frame: Vec<bool> = (0..8_247).map(|n| n % 3 == 0).collect();
    let mut reader = Reader::opened();
    let records = reader.read(&Stream::new().wr_register(5, 0xFFFF).front_end(4, &frame));
    assert_eq!(
        records[1],
        rec(33 + 17 + 65_976 - 1, 0x24, 0x01, 0x0038_1FFF)
    );
    assert_eq!(reader.frames.len(), 1);
    assert_eq!(reader.frames[0].len(), 1_031);
    assert_eq!(reader.frames[0], Stream::new().raw(&frame).bytes());
}

#[test]
fn the_last_cycle_of_the_clock() {
    for (count, taken, ending) in [(1, 1, Ending::Done), (2, 0, Ending::Refused(6))] {
        let (number, state) = open(Plan::DEFAULT, CLOCK_LIMIT - 1);
        assert_eq!(number, None);
        let mut reader = Reader::new(state.clone());
        let answer = reader::take(
            state.clone(),
            &[0],
            0,
            count,
            &mut reader.store,
            &mut reader.tray,
            &mut [0; 2],
            0,
        );
        assert_eq!((answer.bits_taken, answer.ending), (taken, ending));
        assert_eq!(answer.state.next_cycle, CLOCK_LIMIT - 1 + taken);
    }
}

#[test]
fn the_listing() {
    let mut out = Vec::new();
    station(&b"B5C074\nE0B080\n"[..], &mut out).unwrap();
    let expected = "\
        000000000010 28 01 00000000\n\
        000000000015 01 05 00000015\n\
        00000000001C 01 07 0005011C\n\
        000000000028 11 01 00000000\n";
    assert_eq!(String::from_utf8(out).unwrap(), expected);
}
