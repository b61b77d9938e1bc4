//! The bits of frames, and the part of the tray that they fill.

use super::call::Call;
use super::checker::Checker;
use super::prefilled;
use cases::Random;
use reader::limits::TRAY_BYTES;
use reader::slow;
use std::io;

/// WrFrontEnd, RdFrontEnd and WrReceiver.
const FRAME_KINDS: [u64; 3] = [0x24, 0x25, 0x26];

pub fn check(checker: &mut Checker) -> io::Result<()> {
    let mut random = Random::new(0xF8A3);
    counts(checker, &mut random)?;
    other_kinds(checker, &mut random)?;
    parts(checker, &mut random)
}

/// The records of frames by many CNT, and ones with any value.
fn counts(checker: &mut Checker, random: &mut Random) -> io::Result<()> {
    for number in 0..600 {
        let cnt = match number {
            0 => 0,
            1 => 0xFFFF,
            _ => random.word() as u16,
        };
        for kind in FRAME_KINDS {
            let by_cnt = match kind {
                0x26 => slow::receiver_bits(cnt),
                _ => slow::control_bits(cnt) << 16 | slow::data_bits(cnt),
            };
            for value in [u64::from(by_cnt), u64::from(random.word() as u32)] {
                let head = random.word() & !0xFF00 | kind << 8;
                let name = format!("bits of frame {head:#X} {value:#X}");
                checker.check(name, &Call::FrameBits { head, value })?;
            }
        }
    }
    Ok(())
}

/// Records of every other kind, which end no frame.
fn other_kinds(checker: &mut Checker, random: &mut Random) -> io::Result<()> {
    for kind in (0..=0xFF).filter(|kind| !FRAME_KINDS.contains(kind)) {
        let any = random.word();
        for value in [0, 1, 0x0008_0010, u64::from(any as u32), any, u64::MAX] {
            let head = random.word() & !0xFF00 | kind << 8;
            let name = format!("bits of no frame {head:#X} {value:#X}");
            checker.check_number(name, 0, &Call::FrameBits { head, value })?;
        }
    }
    Ok(())
}

/// Trays of any length, with counts about their end and near all numbers.
fn parts(checker: &mut Checker, random: &mut Random) -> io::Result<()> {
    for length in [0, 1, 2, 3, 100, TRAY_BYTES - 1, TRAY_BYTES, TRAY_BYTES + 1] {
        let tray = prefilled::bytes(random, length);
        let end = length as u64 * 8;
        let about = (0..20).map(|step| (end + step).saturating_sub(10));
        let far = [
            1 << 32,
            1 << 61,
            (1 << 61) + end,
            1 << 63,
            u64::MAX - 7,
            u64::MAX,
        ];
        for bits in (0..20).chain(about).chain(far) {
            let name = format!("part of {length} bytes by {bits} bits");
            let tray = tray.clone();
            checker.check(name, &Call::FramePart { tray, bits })?;
        }
    }
    Ok(())
}
