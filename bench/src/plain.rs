//! A plain reader of triggers and fast commands alone, bit by bit: the least
//! that any reader does. Both benchmark streams bring it nothing else, but for
//! the EnDataTake at each call's start, which it passes over by its length.

const ENABLE_BITS: usize = 17;

/// The bits of an LV1 and of a Fast.
const LV1: u64 = 5;
const FAST: u64 = 9;

#[inline(never)]
pub fn take(input: &[u8], list: &mut [u64]) -> usize {
    let mut window = 0u8;
    let mut body: Option<(u8, u32)> = None;
    let mut l1id = 0u64;
    let mut base = 0u64;
    // The record before asks an LV1, and a Fast, to end no earlier than this.
    let (mut lv1_from, mut fast_from) = (0, 0);
    let mut at = 0;
    let mut first = 0;
    if input[0] == 0xB5 {
        let time = ENABLE_BITS as u64 - 1;
        list[0] = time * 65536 + 0x2801;
        list[1] = 0;
        (lv1_from, fast_from) = (time + LV1, time + FAST);
        at = 2;
        first = ENABLE_BITS;
    }
    for place in first..8 * input.len() {
        if list.len() - at < 2 {
            break;
        }
        let bit = input[place / 8] >> (7 - place % 8) & 1;
        let time = place as u64;
        let (kind, flags, value, close) = match body {
            None => {
                window = (window << 1 | bit) & 31;
                let position = match window {
                    0b11101 => 0,
                    0b01101 => 1,
                    0b10101 => 2,
                    0b11001 => 3,
                    0b11111 => 4,
                    0b11100 => 5,
                    0b10110 => {
                        body = Some((0, 0));
                        continue;
                    }
                    _ => continue,
                };
                let flags = if position == 0 { 5 } else { 7 };
                let value = position * 65536 + l1id * 256 + (time - base) % 256;
                l1id = (l1id + 1) % 256;
                let close = time < lv1_from;
                (lv1_from, fast_from) = (time + LV1, time + FAST);
                (1, flags, value, close)
            }
            Some((bits, count)) => {
                let bits = bits << 1 | bit;
                if count < 3 {
                    body = Some((bits, count + 1));
                    continue;
                }
                body = None;
                let close = time < fast_from;
                (lv1_from, fast_from) = (time + LV1, time + FAST);
                match bits {
                    1 => {
                        base = time;
                        fast_from += 2;
                    }
                    2 => {
                        l1id = 0;
                        fast_from += 1;
                    }
                    8 => lv1_from += 4,
                    _ => {}
                }
                (0x10 + bits as u64, 1, 0, close)
            }
        };
        window = 0;
        let flags = if close { flags + 0x20 } else { flags };
        list[at] = time * 65536 + kind * 256 + flags;
        list[at + 1] = value;
        at += 2;
    }
    at / 2
}
