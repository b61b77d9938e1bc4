//! One cycle of a sound state ("One cycle, one bit").

use crate::effect;
use crate::record::{record_of, Record};
use crate::state::State;
use crate::timing::Earlier;
use crate::tray;

/// Takes one bit and answers its record, if it ends a command.
#[inline]
pub fn cycle(state: &mut State, bit: bool, store: &mut [u32], tray: &mut [u8]) -> Option<Record> {
    let time = state.next_cycle;
    state.next_cycle += 1;
    let cnt = state.cnt();
    let step = state.recogniser.step(bit, cnt);
    if step.leaves_run_mode {
        state.run_mode = false;
    }
    if let Some(frame_bit) = step.frame_bit {
        tray::store_bit(tray, frame_bit);
    }
    let command = step.command?;
    let record = record_of(command, time, state, store);
    effect::apply(command, time, state, store);
    state.earlier = Earlier::of(&record);
    Some(record)
}
