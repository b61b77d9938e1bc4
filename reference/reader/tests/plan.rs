//! The register plan: the default of document 02, F-9, by its numbers, and
//! mask 007F, the default before it, by name.

mod common;

use cases::Stream;
use common::{Reader, PLAN_007F};
use reader::limits::CLOCK_LIMIT;
use reader::{open, Plan, State};
use std::ops::RangeInclusive;

#[test]
fn the_default_plan() {
    let plan = Plan::DEFAULT;
    assert_eq!(
        (plan.mask, plan.csr, plan.feen, plan.cnt),
        (0x07FF, 0, 2, 5)
    );
    assert!(plan.opens());
    for address in [0, 1, 2, 3, 4, 5, 6, 7, 8, 9, 10] {
        assert!(plan.has(address), "{address}");
    }
    for address in [11, 12, 13, 14, 15, 16, 255] {
        assert!(!plan.has(address), "{address}");
    }
}

#[test]
fn mask_007f_by_name() {
    assert!(PLAN_007F.opens());
    for address in [0, 1, 2, 3, 4, 5, 6] {
        assert!(PLAN_007F.has(address), "{address}");
    }
    for address in [7, 8, 9, 10, 11, 12, 13, 14, 15, 16, 255] {
        assert!(!PLAN_007F.has(address), "{address}");
    }
}

/// The states that have the default plan: of an opening with it, and of
/// refused openings, whatever they asked for.
fn default_states() -> [State; 3] {
    let wrong = Plan {
        cnt: 7,
        ..PLAN_007F
    };
    let openings = [(Plan::DEFAULT, 0), (wrong, 9), (PLAN_007F, CLOCK_LIMIT)];
    openings.map(|(plan, cycle)| open(plan, cycle).1)
}

/// Writes hexadecimal 1230 and the address to each address, then reads them
/// all. Answers flags and value of each record, and the registers.
fn written_and_read(state: State, addresses: RangeInclusive<u8>) -> (Vec<(u8, u32)>, [u16; 16]) {
    let stream = addresses.clone().fold(Stream::new(), |stream, address| {
        stream.wr_register(address, 0x1230 + u16::from(address))
    });
    let stream = addresses.fold(stream, Stream::rd_register);
    let mut reader = Reader::new(state);
    let records = reader.read(&stream);
    let seen = records.iter().map(|record| (record.flags, record.value));
    (seen.collect(), reader.state.registers)
}

#[test]
fn registers_7_to_10_exist_by_the_default_plan() {
    for state in default_states() {
        let (records, registers) = written_and_read(state, 7..=10);
        let each = [0x0007_1237, 0x0008_1238, 0x0009_1239, 0x000A_123A].map(|value| (0x01, value));
        assert_eq!(records, [each, each].concat());
        assert_eq!(registers[7..11], [0x1237, 0x1238, 0x1239, 0x123A]);
    }
}

#[test]
fn registers_11_to_15_are_missing_by_the_default_plan() {
    let arrived = [
        0x000B_123B,
        0x000C_123C,
        0x000D_123D,
        0x000E_123E,
        0x000F_123F,
    ];
    for state in default_states() {
        let (records, registers) = written_and_read(state, 11..=15);
        assert_eq!(records, missing(arrived));
        assert_eq!(registers, [0; 16]);
    }
}

#[test]
fn registers_7_to_10_are_missing_by_mask_007f() {
    let arrived = [0x0007_1237, 0x0008_1238, 0x0009_1239, 0x000A_123A];
    let (_, state) = open(PLAN_007F, 0);
    let (records, registers) = written_and_read(state, 7..=10);
    assert_eq!(records, missing(arrived));
    assert_eq!(registers, [0; 16]);
}

/// A write's value has the bits that arrived, a read's has zeros.
fn missing<const N: usize>(arrived: [u32; N]) -> Vec<(u8, u32)> {
    let read = arrived.map(|value| value & 0xFFFF_0000);
    let values = [arrived, read].concat();
    values.into_iter().map(|value| (0x08, value)).collect()
}
