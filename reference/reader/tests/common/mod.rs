//! What the tests share: a decoder with its buffers, and shorthands.
#![allow(dead_code)]

pub mod damage;
pub mod hits;
pub mod replies;

use cases::Stream;
use reader::limits::{STORE_WORDS, TRAY_BYTES};
use reader::{frame_part, open, take, Earlier, Ending, Plan, Record, State};

/// Registers 0 to 6: the default up to document 02, F-9. Who counts on flag
/// 08 for addresses 7 to 10 opens with it.
pub const PLAN_007F: Plan = Plan {
    mask: 0x007F,
    csr: 0,
    feen: 2,
    cnt: 5,
};

/// The default plan and the one before it, each with how many registers
/// exist, which are those from address 0 on.
pub const PLANS: [(Plan, u8); 2] = [(Plan::DEFAULT, 11), (PLAN_007F, 7)];

#[derive(Clone, Debug, PartialEq)]
pub struct Reader {
    pub state: State,
    pub store: Vec<u32>,
    pub tray: Vec<u8>,
    /// Every frame read, in order.
    pub frames: Vec<Vec<u8>>,
}

impl Reader {
    pub fn new(state: State) -> Reader {
        Reader {
            state,
            store: vec![0; STORE_WORDS],
            tray: vec![0; TRAY_BYTES],
            frames: Vec::new(),
        }
    }

    pub fn opened() -> Reader {
        Reader::opened_by(Plan::DEFAULT)
    }

    pub fn opened_by(plan: Plan) -> Reader {
        let (number, state) = open(plan, 0);
        assert_eq!(number, None, "{plan:?}");
        Reader::new(state)
    }

    /// Cycle 0, window 00000, RunMode on.
    pub fn running() -> Reader {
        Reader::with_run_mode(true)
    }

    pub fn with_run_mode(run_mode: bool) -> Reader {
        let mut reader = Reader::opened();
        reader.state.run_mode = run_mode;
        reader
    }

    pub fn read(&mut self, stream: &Stream) -> Vec<Record> {
        self.read_part(&stream.bytes(), 0, stream.bits.len() as u64, 1_000)
    }

    /// Takes `count` bits from `first` on in calls whose lists have room for
    /// `room` records, each resumed after 'frame' and 'list full', and checks
    /// each ending's condition.
    pub fn read_part(&mut self, bytes: &[u8], first: u64, count: u64, room: usize) -> Vec<Record> {
        let mut records = Vec::new();
        let mut taken = 0;
        loop {
            let mut list = vec![0; 2 * room];
            let answer = take(
                self.state.clone(),
                bytes,
                first + taken,
                count - taken,
                &mut self.store,
                &mut self.tray,
                &mut list,
                0,
            );
            self.state = answer.state;
            taken += answer.bits_taken;
            let written = answer.records_written as usize;
            let new: Vec<Record> = list[..2 * written]
                .chunks(2)
                .map(|pair| Record::from_words([pair[0], pair[1]]))
                .collect();
            assert!(list[2 * written..].iter().all(|&word| word == 0));
            let frame = new.last().and_then(Record::frame_bits);
            records.extend(new);
            match answer.ending {
                Ending::Done => {
                    assert_eq!((taken, frame), (count, None));
                    return records;
                }
                Ending::ListFull => {
                    assert!(taken < count && written == room && frame.is_none());
                }
                Ending::Frame => {
                    let frame = frame.expect("a frame's record ends the call");
                    self.frames.push(frame_part(&self.tray, frame).to_vec());
                }
                Ending::Refused(number) => panic!("refused with number {number}"),
            }
        }
    }
}

pub fn rec(time: u64, kind: u8, flags: u8, value: u32) -> Record {
    Record {
        time,
        kind,
        flags,
        value,
    }
}

pub fn stream(pattern: &str) -> Stream {
    Stream::new().pattern(pattern)
}

/// Which of five received bits is not an exact LV1's, from 1 on, or 0 if none
/// is (document 02, F-1). There is no answer for two or more of them.
pub fn position(received: &[bool]) -> Option<u32> {
    let exact = Stream::new().lv1().bits;
    assert_eq!(received.len(), exact.len());
    let differ = |place: &u32| received[*place as usize - 1] != exact[*place as usize - 1];
    let hit: Vec<u32> = (1..=5).filter(differ).collect();
    match hit[..] {
        [] => Some(0),
        [position] => Some(position),
        _ => None,
    }
}

/// The records of a stream read from cycle 0 with RunMode on.
pub fn running_records(stream: &Stream) -> Vec<Record> {
    Reader::running().read(stream)
}

/// The earlier record that a state remembers.
pub fn earlier(time: u64, kind: u8) -> Earlier {
    Earlier { time, kind }
}

/// Document 01's timing table: the zeros asked between two commands, by the
/// kinds of their records. What is no LV1 counts as a Fast when it follows.
pub fn zeros_asked(first: u8, second: u8) -> i64 {
    let lv1_follows = second == 0x01;
    match (first, lv1_follows) {
        (0x11, false) => 2,
        (0x12, false) => 1,
        (0x18, true) => 4,
        _ => 0,
    }
}

/// The cycles of a command. Those of a frame are read off its record, and so
/// do not go by CNT.
pub fn cycles_of(record: &Record) -> i64 {
    let frame = record.frame_bits().unwrap_or(0) as i64;
    match record.kind {
        0x01 => 5,
        0x10..=0x1F => 9,
        0x20 | 0x21 => 17 + 16,
        0x22 | 0x23 => 17 + 27,
        0x24 | 0x25 => 17 + 8 * frame,
        0x26 => 17 + frame,
        0x28 | 0x29 | 0x2F => 17,
        0x2A => 17 + 4,
        kind => panic!("no record has kind {kind:02X}"),
    }
}

/// Document 02, F-5, in its words: "its first bit's cycle, less the earlier
/// record's time, less 1".
pub fn distance(before: Earlier, record: &Record) -> i64 {
    let first_bit = record.time as i64 - (cycles_of(record) - 1);
    first_bit - before.time as i64 - 1
}

/// Whether a record gets flag 20, with this earlier record. Kind 0 is none.
pub fn is_too_close(before: Earlier, record: &Record) -> bool {
    before.kind != 0 && distance(before, record) < zeros_asked(before.kind, record.kind)
}

/// The record with flag 20 just as the rule says.
pub fn flagged(before: Earlier, record: Record) -> Record {
    let close = if is_too_close(before, &record) {
        0x20
    } else {
        0
    };
    Record {
        flags: record.flags & !0x20 | close,
        ..record
    }
}
