//! Where what came of a call differs from what is expected.

use super::call::Call;
use super::expected::Expected;
use super::layout::{largest, name};

/// A buffer that the driver sends back, as bytes.
struct Buffer {
    name: &'static str,
    element_bytes: usize,
    bytes: Vec<u8>,
}

impl Buffer {
    fn bytes(name: &'static str, bytes: &[u8]) -> Buffer {
        Buffer {
            name,
            element_bytes: 1,
            bytes: bytes.to_vec(),
        }
    }

    fn words(name: &'static str, words: &[u64]) -> Buffer {
        Buffer {
            name,
            element_bytes: 8,
            bytes: words.iter().flat_map(|word| word.to_le_bytes()).collect(),
        }
    }

    fn store(words: &[u32]) -> Buffer {
        Buffer {
            name: "store",
            element_bytes: 4,
            bytes: words.iter().flat_map(|word| word.to_le_bytes()).collect(),
        }
    }
}

/// The slices of a call that are not const, in the order of its arguments.
fn buffers(call: &Call) -> Vec<Buffer> {
    match call {
        Call::Open(open) => vec![Buffer::words(IMAGE, &open.image)],
        Call::Take(take) => vec![
            Buffer::words(IMAGE, &take.image),
            Buffer::store(&take.store),
            Buffer::bytes("tray", &take.tray),
            Buffer::words("list", &take.list),
            Buffer::words("result", &take.result),
        ],
        Call::FrameBits { .. } | Call::FramePart { .. } | Call::Accept { .. } => Vec::new(),
        Call::HexLine { bytes, .. } => vec![Buffer::bytes("bytes", bytes)],
        Call::RecordLine { line, .. } => vec![Buffer::bytes("line", line)],
        Call::Compose(compose) => vec![Buffer::bytes("output", &compose.output)],
        Call::Reply(reply) => vec![Buffer::bytes("buffer", &reply.buffer)],
    }
}

const IMAGE: &str = "image";
const WORD: usize = 8;

/// How many bytes the driver sends for a call.
pub fn reply_bytes(expected: &Expected) -> usize {
    let buffers = buffers(&expected.after);
    WORD + buffers.iter().map(|b| b.bytes.len()).sum::<usize>()
}

/// The first difference in plain words; `None` if all is as expected.
pub fn difference(expected: &Expected, reply: &[u8]) -> Option<String> {
    let (answer, mut rest) = reply.split_at(WORD);
    let answer = number(answer);
    if answer != expected.answer {
        let expected = expected.answer;
        return Some(format!(
            "the answer differs: expected {expected}, got {answer}"
        ));
    }
    for buffer in buffers(&expected.after) {
        let (got, after) = rest.split_at(buffer.bytes.len());
        rest = after;
        if got == buffer.bytes {
            continue;
        }
        let unspecified: &[usize] = match buffer.name {
            IMAGE => &expected.unspecified,
            _ => &[],
        };
        if let Some(difference) = in_buffer(&buffer, got, unspecified) {
            return Some(difference);
        }
    }
    None
}

/// The first element that differs. An unspecified one may be any word of its
/// width.
fn in_buffer(expected: &Buffer, got: &[u8], unspecified: &[usize]) -> Option<String> {
    let size = expected.element_bytes;
    let elements = expected
        .bytes
        .chunks(size)
        .zip(got.chunks(size))
        .enumerate();
    for (place, (expected_element, got)) in elements {
        let (expected_element, got) = (number(expected_element), number(got));
        if expected_element == got || (unspecified.contains(&place) && got <= largest(place)) {
            continue;
        }
        let what = match expected.name {
            IMAGE if expected.bytes.len() == super::layout::IMAGE_WORDS * WORD => {
                format!("word {place} ({})", name(place))
            }
            _ => format!("element {place}"),
        };
        let buffer = expected.name;
        return Some(format!(
            "{buffer} {what} differs: expected {expected_element:#X}, got {got:#X}"
        ));
    }
    None
}

/// A number of up to eight bytes, lowest first.
fn number(bytes: &[u8]) -> u64 {
    bytes
        .iter()
        .rev()
        .fold(0, |number, &byte| number << 8 | u64::from(byte))
}
