//! The taking call ("A taking call").

use crate::cycle::cycle;
use crate::hunting::{bit_at, skip_to_match};
use crate::limits::{input_fits, CLOCK_LIMIT, RECORD_WORDS, STORE_WORDS, TRAY_BYTES};
use crate::recogniser::Recogniser;
use crate::sound::sound;
use crate::state::State;

#[derive(Clone, Debug, PartialEq, Eq)]
pub struct Answer {
    pub state: State,
    pub bits_taken: u64,
    /// Counted in records, not in words.
    pub records_written: u64,
    pub ending: Ending,
}

#[derive(Clone, Copy, Debug, PartialEq, Eq)]
pub enum Ending {
    /// Every bit of the count was taken.
    Done,
    /// The last bit taken ended a command of kind 24, 25 or 26.
    Frame,
    /// Bits remain, and there is no room for a record.
    ListFull,
    /// Rejected with this number; nothing changed.
    Refused(u8),
}

/// Takes `count` bits of `input` from bit `first_bit` on and writes their
/// records into `list` from word `first_free` on.
#[allow(clippy::too_many_arguments)]
pub fn take(
    mut state: State,
    input: &[u8],
    first_bit: u64,
    count: u64,
    store: &mut [u32],
    tray: &mut [u8],
    list: &mut [u64],
    first_free: u64,
) -> Answer {
    let lent_fit =
        store.len() == STORE_WORDS && tray.len() == TRAY_BYTES && first_free <= list.len() as u64;
    if let Some(number) = refusal(&state, lent_fit, input, first_bit, count) {
        return Answer {
            state,
            bits_taken: 0,
            records_written: 0,
            ending: Ending::Refused(number),
        };
    }

    let end = first_bit + count;
    let mut next_bit = first_bit;
    let mut free = list[first_free as usize..].chunks_exact_mut(RECORD_WORDS);
    let mut place = free.next();
    let mut records_written = 0;
    let mut ending = Ending::Done;
    while next_bit < end {
        // Tested ahead of each bit, whatever that bit would do.
        let Some(words) = place.as_mut() else {
            ending = Ending::ListFull;
            break;
        };
        if let Recogniser::Hunting { window } = &mut state.recogniser {
            let from = next_bit;
            (*window, next_bit) = skip_to_match(*window, input, from, end);
            state.next_cycle += next_bit - from;
            if next_bit == end {
                break;
            }
        }
        let bit = bit_at(input, next_bit);
        next_bit += 1;
        let Some(record) = cycle(&mut state, bit, store, tray) else {
            continue;
        };
        words.copy_from_slice(&record.words());
        records_written += 1;
        if record.frame_bits().is_some() {
            ending = Ending::Frame;
            break;
        }
        place = free.next();
    }
    Answer {
        state,
        bits_taken: next_bit - first_bit,
        records_written,
        ending,
    }
}

/// The lowest number that the call is rejected with.
fn refusal(state: &State, lent_fit: bool, input: &[u8], first_bit: u64, count: u64) -> Option<u8> {
    if !sound(state) {
        return Some(3);
    }
    if !lent_fit {
        return Some(4);
    }
    if !input_and_range_fit(input, first_bit, count) {
        return Some(5);
    }
    if count > CLOCK_LIMIT - state.next_cycle {
        return Some(6);
    }
    None
}

/// Number 5's rule.
pub fn input_and_range_fit(input: &[u8], first_bit: u64, count: u64) -> bool {
    input_fits(input.len()) && range_fits(input.len() as u64 * 8, first_bit, count)
}

/// Differences instead of sums, as a sum of the caller's numbers can overflow.
fn range_fits(bits: u64, first_bit: u64, count: u64) -> bool {
    first_bit <= bits && count <= bits - first_bit
}
