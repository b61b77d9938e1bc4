//! Buffers with random contents, which a call must leave where it does not
//! write.

use cases::Random;
use reader::limits::{STORE_WORDS, TRAY_BYTES};

pub fn words(random: &mut Random, count: usize) -> Vec<u64> {
    (0..count).map(|_| random.word()).collect()
}

pub fn bytes(random: &mut Random, count: usize) -> Vec<u8> {
    let words = words(random, count.div_ceil(8));
    let bytes = words.iter().flat_map(|word| word.to_le_bytes());
    bytes.take(count).collect()
}

/// A store with bits set beyond the 27 of its words.
pub fn store(random: &mut Random) -> Vec<u32> {
    (0..STORE_WORDS).map(|_| random.word() as u32).collect()
}

pub fn tray(random: &mut Random) -> Vec<u8> {
    bytes(random, TRAY_BYTES)
}
