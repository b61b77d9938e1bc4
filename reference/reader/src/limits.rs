//! Sizes and limits ("A taking call" and its refusal table).

/// Cycles are numbered below this ("One cycle, one bit").
pub const CLOCK_LIMIT: u64 = 1 << 48;

/// FIFOs, each of `FIFO_WORDS` words ("What commands do").
pub const FIFOS: usize = 16;
pub const FIFO_WORDS: usize = 128;

/// Words of the FIFO store, document 01's "store".
pub const STORE_WORDS: usize = FIFOS * FIFO_WORDS;

/// Bytes of the frame buffer, document 01's "tray".
pub const TRAY_BYTES: usize = 8_192;

/// 64-bit words that one record takes in a list.
pub const RECORD_WORDS: usize = 2;

/// The low bits of a store word that a FIFO word has.
pub const FIFO_WORD_BITS: u32 = 27;
pub const FIFO_WORD_MASK: u32 = (1 << FIFO_WORD_BITS) - 1;

/// The longest input: a mebibyte (document 02, F-6). Number 5 of document 01
/// began at 65,537 bytes.
const INPUT_BYTES: usize = 1_048_576;

/// Number 5's rule on the input's length alone.
pub fn input_fits(bytes: usize) -> bool {
    bytes <= INPUT_BYTES
}
