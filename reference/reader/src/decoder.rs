//! A decoder with its state and the buffers that its calls are lent.

use crate::limits::{STORE_WORDS, TRAY_BYTES};
use crate::plan::Plan;
use crate::record::Record;
use crate::state::{open, State};
use crate::take::{take, Ending};
use crate::tray::frame_part;

/// Records that one call can write; more only cost memory, fewer more calls.
const LIST_RECORDS: usize = 64;

pub struct Decoder {
    pub state: State,
    pub store: [u32; STORE_WORDS],
    tray: [u8; TRAY_BYTES],
}

impl Decoder {
    /// As the station program starts: cycle 0, default plan, words at zero.
    pub fn start() -> Decoder {
        Decoder {
            state: open(Plan::DEFAULT, 0).1,
            store: [0; STORE_WORDS],
            tray: [0; TRAY_BYTES],
        }
    }

    /// Takes all bits of `bytes` and hands each record out in order, with
    /// its frame's bytes (none for other records and for empty frames).
    /// Answers whether the decoder took them: at the end of its clock it
    /// rejects them.
    pub fn feed(&mut self, bytes: &[u8], mut each: impl FnMut(&Record, &[u8])) -> bool {
        let bits = bytes.len() as u64 * 8;
        let mut first_bit = 0;
        loop {
            let mut list = [0; 2 * LIST_RECORDS];
            let answer = take(
                self.state.clone(),
                bytes,
                first_bit,
                bits - first_bit,
                &mut self.store,
                &mut self.tray,
                &mut list,
                0,
            );
            self.state = answer.state;
            first_bit += answer.bits_taken;
            for pair in list.chunks_exact(2).take(answer.records_written as usize) {
                let record = Record::from_words([pair[0], pair[1]]);
                // A frame's record is the last of its call, so that the tray
                // still holds the frame.
                let frame = frame_part(&self.tray, record.frame_bits().unwrap_or(0));
                each(&record, frame);
            }
            match answer.ending {
                Ending::Done => return true,
                Ending::Refused(_) => return false,
                Ending::Frame | Ending::ListFull => {}
            }
        }
    }
}
