//! When a state is sound (the last paragraph of "A taking call"; of groups,
//! document 02, F-4; of the earlier record, F-5).

use crate::limits::{CLOCK_LIMIT, FIFO_WORDS};
use crate::recogniser::{Recogniser, FIELD_BITS};
use crate::slow;
use crate::state::State;

pub fn sound(state: &State) -> bool {
    state.plan.opens()
        && state.next_cycle <= CLOCK_LIMIT
        && state.base_cycle <= state.next_cycle
        && earlier_is_past(state)
        && pointers_fit(state)
        && missing_registers_hold_zero(state)
        && state.l1id < 256
        && !(state.run_mode && inside_slow(&state.recogniser))
        && recogniser_sound(&state.recogniser, state.cnt())
}

/// Nothing is asked of the time where there is no earlier record.
fn earlier_is_past(state: &State) -> bool {
    !state.earlier.is_some() || state.earlier.time < state.next_cycle
}

fn pointers_fit(state: &State) -> bool {
    let fit = |pointers: &[u8]| pointers.iter().all(|&p| usize::from(p) < FIFO_WORDS);
    fit(&state.write_pointers) && fit(&state.read_pointers)
}

fn missing_registers_hold_zero(state: &State) -> bool {
    (0..16).all(|address| state.plan.has(address) || state.stored(address) == 0)
}

/// From the ninth header bit on, with no bit of Field 3 received yet too.
fn inside_slow(recogniser: &Recogniser) -> bool {
    !matches!(
        recogniser,
        Recogniser::Hunting { .. } | Recogniser::Body { .. }
    )
}

fn recogniser_sound(recogniser: &Recogniser, cnt: u16) -> bool {
    match *recogniser {
        Recogniser::Hunting { window } => window < 32,
        Recogniser::Body { held, received } | Recogniser::Field3 { held, received } => {
            four_bits_sound(held, received)
        }
        Recogniser::Field4 {
            field3,
            held,
            received,
        } => field3 < 16 && four_bits_sound(held, received),
        Recogniser::Field5 {
            field3,
            field4,
            held,
            received,
            group,
        } => {
            slow::has_field5(field3)
                && field4 < 16
                && slow::field5_cycles(field3, cnt).is_some_and(|cycles| received < cycles)
                && (!slow::keeps_field5(field3) || fits(held, received))
                && (!slow::has_groups(field3) || group.fits(received))
        }
    }
}

fn four_bits_sound(held: u8, received: u8) -> bool {
    received < FIELD_BITS && fits(u32::from(held), u32::from(received))
}

/// A number held is below 2 to the count of bits received. Called with at
/// most 26 bits received, as the lengths are checked first.
fn fits(held: u32, received: u32) -> bool {
    held >> received == 0
}
