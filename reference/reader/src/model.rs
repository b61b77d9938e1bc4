//! The controller's state as lines, for comparison with another reader's.

use crate::limits::{FIFOS, FIFO_WORDS};
use crate::listing::push_number;
use crate::state::State;

/// Adds all lines: registers as a read gives them, counters, RunMode,
/// pointers, and every word of the store that is not 0.
pub fn push_model(out: &mut Vec<u8>, state: &State, store: &[u32]) {
    for address in (0..16).filter(|&address| state.plan.has(address)) {
        let value = u64::from(state.read(address));
        push_line(out, "register", &[(u64::from(address), 1), (value, 4)]);
    }
    push_line(out, "l1id", &[(u64::from(state.l1id), 2)]);
    push_line(out, "base", &[(state.base_cycle, 12)]);
    push_line(out, "runmode", &[(u64::from(state.run_mode), 1)]);
    for fifo in 0..FIFOS {
        let write = u64::from(state.write_pointers[fifo]);
        let read = u64::from(state.read_pointers[fifo]);
        push_line(out, "pointers", &[(fifo as u64, 1), (write, 2), (read, 2)]);
    }
    for (place, &word) in store.iter().enumerate().filter(|(_, &word)| word != 0) {
        let fifo = (place / FIFO_WORDS) as u64;
        let place = (place % FIFO_WORDS) as u64;
        push_line(out, "word", &[(fifo, 1), (place, 2), (u64::from(word), 8)]);
    }
}

/// A name and numbers, each with its count of digits, parted by spaces.
fn push_line(out: &mut Vec<u8>, name: &str, numbers: &[(u64, u32)]) {
    out.extend_from_slice(name.as_bytes());
    for &(number, digits) in numbers {
        out.push(b' ');
        push_number(out, number, digits);
    }
    out.push(b'\n');
}
