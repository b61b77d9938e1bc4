//! What commands do to the state and the store ("What commands do").

use crate::limits::{FIFOS, FIFO_WORDS};
use crate::recogniser::{Command, BCR, ECR};
use crate::slow;
use crate::state::{State, Warnings, WARNING_BITS};

/// The effects of a command in the cycle of its record.
pub fn apply(command: Command, time: u64, state: &mut State, store: &mut [u32]) {
    match command {
        Command::Lv1 { position } => {
            // Warnings are set in and out of RunMode.
            state.warnings.wlv1 |= position != 0;
            if state.run_mode {
                state.l1id = (state.l1id + 1) % 256;
            }
        }
        Command::Fast { body: BCR } if state.run_mode => state.base_cycle = time,
        Command::Fast { body: ECR } if state.run_mode => {
            state.l1id = 0;
            clear_pointers(state);
        }
        Command::Fast { .. } => {}
        Command::BadFast { .. } => state.warnings.wfst = true,
        Command::BadSlow { .. } => state.warnings.wslw = true,
        Command::Slow {
            field3,
            field4,
            field5,
            ..
        } => apply_slow(field3, field4, field5, time, state, store),
    }
}

fn apply_slow(
    field3: u8,
    field4: u8,
    field5: u32,
    time: u64,
    state: &mut State,
    store: &mut [u32],
) {
    match field3 {
        slow::WR_REGISTER => write_register(field4, field5 as u16, state),
        slow::WR_FIFO => write_fifos(field5, state, store),
        slow::RD_FIFO => advance(&mut state.read_pointers[usize::from(field4)]),
        slow::EN_DATA_TAKE => state.run_mode = true,
        slow::GLOBAL_RESET_MCC => {
            state.registers = [0; 16];
            state.l1id = 0;
            state.warnings = Warnings::default();
            state.base_cycle = time;
            clear_pointers(state);
        }
        _ => {}
    }
}

fn write_register(address: u8, bits: u16, state: &mut State) {
    if !state.plan.has(address) {
        return;
    }
    let not_writable = if address == state.plan.csr {
        WARNING_BITS
    } else {
        0
    };
    state.registers[usize::from(address)] = bits & !not_writable;
}

fn write_fifos(word: u32, state: &mut State, store: &mut [u32]) {
    let enabled = state.feen();
    for fifo in 0..FIFOS {
        if enabled >> fifo & 1 == 1 {
            let pointer = &mut state.write_pointers[fifo];
            store[fifo * FIFO_WORDS + usize::from(*pointer)] = word;
            advance(pointer);
        }
    }
}

fn advance(pointer: &mut u8) {
    *pointer = (*pointer + 1) % FIFO_WORDS as u8;
}

fn clear_pointers(state: &mut State) {
    state.write_pointers = [0; FIFOS];
    state.read_pointers = [0; FIFOS];
}
