//! The listing and the marked streams of document 01, and the received
//! patterns of the chip paper's Tables 1-4 to 1-9.

use super::{in_run_mode, run_mode_name};
use crate::Case;

/// "Streams with their records"; the last one asks for CNT 0, which holds.
const MARKED: [&str; 14] = [
    "11101",
    "11100",
    "000111101",
    "11110",
    "1110111101",
    "111011101",
    "101100001",
    "101101001",
    "101110100",
    "111101000",
    "001100100",
    "0010101101011",
    "10110101110110000",
    "10110101101000000",
];

/// The first column of each table.
pub const RECEIVED: [(u8, &[&str]); 6] = [
    (
        4,
        &[
            "0000_11101_00",
            "0000_11101_10",
            "0000_11100_00",
            "0000_11111_00",
            "0000_11001_00",
            "0000_10101_00",
            "0000_01101_00",
            "0001_11101_00",
            "0010_11101_00",
            "0100_11101_00",
        ],
    ),
    (
        5,
        &[
            "0000_10110.0001_00",
            "0000_10110.0001_10",
            "0000_10110.0000_00",
            "0000_10110.0011_00",
            "0000_10110.0101_00",
            "0000_10110.1001_00",
            "0000_10111.0001_00",
            "0000_10100.0001_00",
            "0000_10010.0001_00",
            "0000_11110.0001_00",
            "0000_00110.0001_00",
            "0001_10110.0001_00",
            "0010_10110.0001_00",
            "0100_10110.0001_00",
        ],
    ),
    (
        6,
        &[
            "0000_10110.0100_00",
            "0000_10110.0100_10",
            "0000_10110.0101_00",
            "0000_10110.0110_00",
            "0000_10110.0000_00",
            "0000_10110.1100_00",
            "0000_10111.0100_00",
            "0000_10100.0100_00",
            "0000_10010.0100_00",
            "0000_11110.0100_00",
            "0000_00110.0100_00",
            "0001_10110.0100_00",
            "0010_10110.0100_00",
            "0100_10110.0100_00",
        ],
    ),
    (
        7,
        &[
            "0000_10110.0010_00",
            "0000_10110.0010_10",
            "0000_10110.0011_00",
            "0000_10110.0000_00",
            "0000_10110.0110_00",
            "0000_10110.1010_00",
            "0000_10111.0010_00",
            "0000_10100.0010_00",
            "0000_10010.0010_00",
            "0000_11110.0010_00",
            "0000_00110.0010_00",
            "0001_10110.0010_00",
            "0010_10110.0010_00",
            "0100_10110.0010_00",
        ],
    ),
    (
        8,
        &[
            "0000_10110.1000_00",
            "0000_10110.1000_10",
            "0000_10110.1001_00",
            "0000_10110.1010_00",
            "0000_10110.1100_00",
            "0000_10110.0000_00",
            "0000_10111.1000_00",
            "0000_10100.1000_00",
            "0000_10010.1000_00",
            "0000_11110.1000_00",
            "0000_00110.1000_00",
            "0001_10110.1000_00",
            "0010_10110.1000_00",
            "0100_10110.1000_00",
        ],
    ),
    (
        9,
        &[
            "0000_10110.1011",
            "0000_10110.1011_10",
            "0000_10110.1010_00",
            "0000_10110.1001_00",
            "0000_10110.1111_00",
            "0000_10110.0011_00",
            "0000_10111.1011_00",
            "0000_10100.1011_00",
            "0000_10010.1011_00",
            "0000_11110.1011_00",
            "0000_00110.1011_00",
            "0001_10110.1011_00",
            "0010_10110.1011_00",
            "0100_10110.1011_00",
        ],
    ),
];

pub fn cases() -> Vec<Case> {
    let mut cases = vec![Case::new("paper/listing", "B5C074\nE0B080\n").golden_if(true)];
    for (number, bits) in (1..).zip(MARKED) {
        cases.extend(marked(number, bits));
    }
    for (table, rows) in RECEIVED {
        for (row, bits) in (1..).zip(rows) {
            cases.extend([true, false].map(|run_mode| received(table, row, bits, run_mode)));
        }
    }
    cases
}

/// The zeros that fill up the last byte can complete a pattern, as after
/// 11110; zeros ahead instead leave the stream as it is.
fn marked(number: u8, bits: &str) -> [Case; 2] {
    let name = format!("marked/{number:02}-{bits}");
    let filled = in_run_mode(true).pattern(bits);
    let ahead = filled.bits.len().wrapping_neg() % 8;
    let whole = in_run_mode(true).zeros(ahead).pattern(bits);
    [
        Case::stream(format!("{name}-whole"), &whole).golden_if(true),
        Case::stream(name, &filled).golden_if(true),
    ]
}

/// A row of a table; golden in RunMode, where its records say more.
fn received(table: u8, row: u8, bits: &str, run_mode: bool) -> Case {
    let mode = run_mode_name(run_mode);
    let digits = bits.replace(['_', '.'], "-");
    let name = format!("tables/1-{table}/row-{row:02}-{digits}-{mode}");
    Case::stream(name, &in_run_mode(run_mode).pattern(bits)).golden_if(run_mode)
}
