//! The numbers of the C header: lengths, places in the image and widths.

use reader::limits::{FIFOS, STORE_WORDS, TRAY_BYTES};

pub const IMAGE_WORDS: usize = 70;
pub const RESULT_WORDS: usize = 3;
pub const RECORD_LINE_BYTES: usize = 28;
pub const LINE_BYTES: usize = 32;
pub const INPUT_BYTES: usize = 1_048_576;
pub const ORDER_WORDS: usize = 6;
pub const REPLY_DATA_BITS: u64 = 8_191;
pub const REPLY_BYTES: usize = 1_024;
/// Layout 1 had a group's first bit in the place of its bits; layout 2 had no
/// earlier record.
pub const LAYOUT: u64 = 3;

// The header's lengths are the papers'.
const _: () = assert!(STORE_WORDS == 2048 && TRAY_BYTES == 8192);

/// The refusal numbers that the cases name; 0 is none.
pub const OK: u64 = 0;
pub const WRONG_PLAN: u64 = 1;
pub const WRONG_CYCLE: u64 = 2;
pub const UNSOUND: u64 = 3;
pub const WRONG_BUFFERS: u64 = 4;
pub const WRONG_RANGE: u64 = 5;
pub const CLOCK_OVER: u64 = 6;
pub const WRONG_CHARACTER: u64 = 7;
pub const WRONG_LENGTH: u64 = 8;
pub const WRONG_ORDER: u64 = 9;
pub const TOO_FEW_ZEROS: u64 = 10;
pub const STREAM_TOO_LONG: u64 = 11;
pub const UNKNOWN_PATTERN: u64 = 13;
pub const CUT_PATTERN: u64 = 14;
pub const PATTERN_TOO_CLOSE: u64 = 15;
pub const WRONG_BIT_COUNT: u64 = 18;
pub const BUFFER_TOO_SMALL: u64 = 19;

/// The answer for a stream: the refusal number and the place of the first bit
/// of the pattern at fault; both 0 if it is accepted. For orders: the refusal
/// number and the order at fault, or the count of bits composed.
pub fn verdict(number: u64, place: u64) -> u64 {
    place << 8 | number
}

/// What is said of a reply.
pub const WHOLE: u64 = 0;
pub const NO_HEADER: u64 = 1;
pub const CUT_SHORT: u64 = 2;

/// The answer for a reply that is not refused: what is said of it, and how many
/// bits are complete. A refusal is its number alone.
pub fn reply(said: u64, complete: u64) -> u64 {
    complete << 16 | said << 8
}

/// How a taking call ended, by its result.
pub const DONE: u64 = 0;
pub const FRAME: u64 = 1;
pub const LIST_FULL: u64 = 2;

/// Places of the words of an image.
pub mod at {
    pub const LAYOUT: usize = 0;
    pub const MASK: usize = 1;
    pub const CSR: usize = 2;
    pub const FEEN: usize = 3;
    pub const CNT: usize = 4;
    pub const NEXT: usize = 5;
    pub const PHASE: usize = 6;
    pub const SHIFT: usize = 7;
    pub const COMMAND: usize = 8;
    pub const ADDRESS: usize = 9;
    pub const COUNT: usize = 10;
    pub const HELD: usize = 11;
    pub const GROUP: usize = 12;
    pub const UNSTEADY: usize = 13;
    pub const RUN_MODE: usize = 14;
    pub const L1ID: usize = 15;
    pub const BASE: usize = 16;
    pub const WLV1: usize = 17;
    pub const WFST: usize = 18;
    pub const WSLW: usize = 19;
    pub const EARLIER_TIME: usize = 20;
    pub const EARLIER_KIND: usize = 21;
    pub const REGISTERS: usize = 22;
    pub const WRITES: usize = 38;
    pub const READS: usize = 54;
}

/// Values of the word at `at::PHASE`.
pub mod phase {
    pub const HUNTING: u64 = 0;
    pub const BODY: u64 = 1;
    pub const FIELD3: u64 = 2;
    pub const FIELD4: u64 = 3;
    pub const FIELD5: u64 = 4;
}

/// The recogniser's words. From an opening on, one that the phase does not
/// use is 0.
pub const RECOGNISER: std::ops::RangeInclusive<usize> = at::SHIFT..=at::UNSTEADY;

/// The largest value of the word at a place that is not beyond its width.
/// The layout's number is told apart by its value, not by its width.
pub fn largest(place: usize) -> u64 {
    match place {
        at::MASK => bits(16),
        at::CSR | at::FEEN | at::CNT => bits(8),
        at::PHASE => phase::FIELD5,
        at::SHIFT | at::COMMAND | at::ADDRESS => bits(8),
        at::COUNT | at::HELD => bits(32),
        at::GROUP => bits(8),
        at::UNSTEADY | at::RUN_MODE => bits(1),
        at::L1ID => bits(8),
        at::WLV1..=at::WSLW => bits(1),
        at::EARLIER_KIND => bits(8),
        at::REGISTERS..at::WRITES => bits(16),
        at::WRITES.. => bits(8),
        _ => u64::MAX,
    }
}

fn bits(width: u32) -> u64 {
    (1 << width) - 1
}

/// The name of an image's word, for whoever reads a difference.
pub fn name(place: usize) -> String {
    const NAMES: [&str; at::REGISTERS] = [
        "layout",
        "mask",
        "CSR",
        "FEEN",
        "CNT",
        "next",
        "phase",
        "shift",
        "command",
        "address",
        "count",
        "held",
        "group",
        "unsteady",
        "RunMode",
        "L1ID",
        "base",
        "WLV1",
        "WFST",
        "WSLW",
        "earlier time",
        "earlier kind",
    ];
    match place {
        at::REGISTERS..at::WRITES => format!("register {}", place - at::REGISTERS),
        at::WRITES..at::READS => format!("write pointer {}", place - at::WRITES),
        at::READS.. => format!("read pointer {}", (place - at::READS) % FIFOS),
        _ => NAMES[place].to_string(),
    }
}
