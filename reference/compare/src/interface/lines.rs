//! Hexadecimal lines and the lines of records.

use super::call::Call;
use super::checker::Checker;
use super::layout::{
    LINE_BYTES, OK, RECORD_LINE_BYTES, WRONG_BUFFERS, WRONG_CHARACTER, WRONG_LENGTH,
};
use super::prefilled;
use cases::Random;
use std::io;

const DIGITS: &[u8; 16] = b"0123456789ABCDEF";

/// Digits that a line may have at most.
const MOST: usize = 64;

const BUFFERS: [usize; 6] = [0, 1, LINE_BYTES - 1, LINE_BYTES, LINE_BYTES + 1, 100];

pub fn check(checker: &mut Checker) -> io::Result<()> {
    let mut random = Random::new(0x11E5);
    for length in (0..=70).chain([127, 128, 1_000, 65_537]) {
        let digits = digits(&mut random, length);
        buffers(checker, "digits", &digits, &mut random)?;
        wrong_characters(checker, &digits, &mut random)?;
    }
    every_character(checker, &mut random)?;
    records(checker, &mut random)
}

fn digits(random: &mut Random, length: usize) -> Vec<u8> {
    let digit = |_| DIGITS[random.below(16) as usize];
    (0..length).map(digit).collect()
}

/// One line into buffers of each length.
fn buffers(checker: &mut Checker, what: &str, line: &[u8], random: &mut Random) -> io::Result<()> {
    for length in BUFFERS {
        let number = if length < LINE_BYTES {
            WRONG_BUFFERS
        } else if !line.iter().all(|character| DIGITS.contains(character)) {
            WRONG_CHARACTER
        } else if line.len() % 2 == 1 || line.len() > MOST {
            WRONG_LENGTH
        } else {
            OK
        };
        let name = format!("line of {} {what} into {length} bytes", line.len());
        let bytes = prefilled::bytes(random, length);
        let line = line.to_vec();
        checker.check_number(name, number, &Call::HexLine { line, bytes })?;
    }
    Ok(())
}

/// A wrong character first, last and somewhere.
fn wrong_characters(checker: &mut Checker, digits: &[u8], random: &mut Random) -> io::Result<()> {
    if digits.is_empty() {
        return Ok(());
    }
    let somewhere = random.below(digits.len() as u64) as usize;
    for place in [0, digits.len() - 1, somewhere] {
        for character in *b"a\n\rf g\0" {
            let mut line = digits.to_vec();
            line[place] = character;
            let what = format!("characters, {character} at {place},");
            buffers(checker, &what, &line, random)?;
        }
    }
    Ok(())
}

/// Every byte value, at every place of a short line.
fn every_character(checker: &mut Checker, random: &mut Random) -> io::Result<()> {
    for character in 0..=255 {
        for place in 0..4 {
            let mut line = digits(random, 4);
            line[place] = character;
            let bytes = prefilled::bytes(random, LINE_BYTES);
            let name = format!("line with character {character} at {place}");
            checker.check(name, &Call::HexLine { line, bytes })?;
        }
    }
    Ok(())
}

/// Records of any time, kind, flags and value into buffers of each length.
fn records(checker: &mut Checker, random: &mut Random) -> io::Result<()> {
    let lengths = [
        0,
        1,
        RECORD_LINE_BYTES - 1,
        RECORD_LINE_BYTES,
        RECORD_LINE_BYTES + 1,
        64,
    ];
    let edges = [0, u64::MAX, 0x0123_4567_89AB_CDEF, 0xFEDC_BA98_7654_3210];
    let random_heads: Vec<_> = prefilled::words(random, 500);
    for head in edges.into_iter().chain(random_heads) {
        // A value as records have it, and one of more than 32 bits.
        let value = head.rotate_left(21);
        for value in [u64::from(value as u32), value | 1 << 32] {
            for length in lengths {
                let number = if length < RECORD_LINE_BYTES {
                    WRONG_BUFFERS
                } else {
                    OK
                };
                let line = prefilled::bytes(random, length);
                let name = format!("record {head:#X} {value:#X} into {length} bytes");
                checker.check_number(name, number, &Call::RecordLine { line, head, value })?;
            }
        }
    }
    Ok(())
}
