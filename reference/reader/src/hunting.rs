//! Hunting over many bits at once ("Hunting").

use crate::window::{meaning, slide, Meaning};

/// Skips bits of the input from bit `from` on, at most up to `end`, as long as
/// the window matches no pattern. Such bits change only the window and the
/// cycle, so this loop keeps to a few numbers instead of the whole state.
/// Answers the window and the first bit not skipped.
#[inline]
pub fn skip_to_match(mut window: u8, input: &[u8], from: u64, end: u64) -> (u8, u64) {
    let mut place = from;
    while place < end {
        let next = slide(window, bit_at(input, place));
        if meaning(next) != Meaning::Nothing {
            break;
        }
        window = next;
        place += 1;
    }
    (window, place)
}

/// A bit of the input. Within a byte the highest bit comes first.
#[inline]
pub fn bit_at(input: &[u8], place: u64) -> bool {
    input[(place / 8) as usize] >> (7 - place % 8) & 1 == 1
}
