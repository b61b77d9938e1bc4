//! The lines of the listing ("Streams with their records", station program).

use crate::record::Record;
use crate::refusal::LINE_DIGITS;
use crate::reply::{Reply, ReplyReader};
use crate::tray::frame_part;

const DIGITS: &[u8; 16] = b"0123456789ABCDEF";

/// Adds a number in so many digits; the line numbers are the only ones that
/// could outgrow theirs, and then get more.
pub fn push_number(out: &mut Vec<u8>, number: u64, digits: u32) {
    let needed = (64 - number.leading_zeros()).div_ceil(4);
    for place in (0..digits.max(needed)).rev() {
        out.push(DIGITS[(number >> (4 * place) & 15) as usize]);
    }
}

/// The line of a record.
pub fn push_record(out: &mut Vec<u8>, record: &Record) {
    push_number(out, record.time, 12);
    out.push(b' ');
    push_number(out, u64::from(record.kind), 2);
    out.push(b' ');
    push_number(out, u64::from(record.flags), 2);
    out.push(b' ');
    push_number(out, u64::from(record.value), 8);
    out.push(b'\n');
}

/// The line of a frame; a frame of no bits has none.
pub fn push_frame(out: &mut Vec<u8>, frame: &[u8]) {
    if frame.is_empty() {
        return;
    }
    out.push(b'>');
    for &byte in frame {
        push_number(out, u64::from(byte), 2);
    }
    out.push(b'\n');
}

/// The line of a refused line, which counts from 1.
pub fn push_refused(out: &mut Vec<u8>, number: u8, line: u64) {
    out.push(b'!');
    push_number(out, u64::from(number), 2);
    out.push(b' ');
    push_number(out, line, 8);
    out.push(b'\n');
}

/// The line of a pattern at fault (document 02, F-8), by the place of its
/// first bit.
pub fn push_fault(out: &mut Vec<u8>, number: u8, place: u64) {
    out.push(b'!');
    push_number(out, u64::from(number), 2);
    out.push(b' ');
    push_number(out, place, 12);
    out.push(b'\n');
}

/// The lines of a reply (document 02, F-12): the answer so far, and the frame
/// of its complete bits.
pub fn push_reply(out: &mut Vec<u8>, reader: &ReplyReader, data: &[u8]) {
    let (answer, complete) = (reader.answer(), reader.complete());
    out.extend_from_slice(match answer {
        Reply::Whole => b"whole ",
        Reply::NoHeader => b"no header",
        Reply::CutShort(_) => b"cut short ",
    });
    if answer != Reply::NoHeader {
        push_number(out, complete, 4);
    }
    out.push(b'\n');
    push_frame(out, frame_part(data, complete));
}

/// Bytes as hexadecimal lines of 32, the last one shorter.
pub fn push_lines(out: &mut Vec<u8>, bytes: &[u8]) {
    for line in bytes.chunks(LINE_DIGITS as usize / 2) {
        for &byte in line {
            push_number(out, u64::from(byte), 2);
        }
        out.push(b'\n');
    }
}
