//! The benchmark's inputs, each as the inputs of its calls.

/// The longest input of a call.
pub const BYTES: usize = 1 << 20;

/// One mebibyte of idle line, in one call.
pub fn zeros() -> Vec<Vec<u8>> {
    vec![vec![0; BYTES]]
}

/// The bits of an EnDataTake.
pub const EN_DATA_TAKE: usize = 17;

/// One mebibyte of commands as dense as the timing table allows, in one call;
/// it begins with an EnDataTake, so that they are acted on.
pub fn dense() -> Vec<Vec<u8>> {
    vec![dense_call()]
}

/// About one mebibyte of the longest front-end frames, CNT FFFF, one a call:
/// a call stops after a frame.
pub fn front_end_frames() -> Vec<Vec<u8>> {
    frames("0100", 8 * 8_247)
}

/// The same of the longest WrReceiver.
pub fn receiver_frames() -> Vec<Vec<u8>> {
    frames("0110", 8 * 8_191)
}

fn frames(field3: &'static str, cycles: usize) -> Vec<Vec<u8>> {
    const SLOW: &str = "101101011";
    let mut bits: Vec<u8> = [
        SLOW,
        "0000",
        "0101",
        "1111111111111111",
        SLOW,
        field3,
        "0000",
    ]
    .into_iter()
    .flat_map(digits)
    .collect();
    bits.extend((0..cycles).map(|n| (n / 8 % 3 == 0) as u8));
    let call = packed(&mut bits);
    vec![call.clone(); BYTES / call.len()]
}

fn dense_call() -> Vec<u8> {
    let mut bits: Vec<u8> = digits("10110101110000000").collect();
    let commands = [
        "11101",
        "101100001",
        "00",
        "101100100",
        "11101",
        "101101000",
        "101100010",
        "11101",
    ];
    'fill: loop {
        for c in commands {
            if bits.len() + c.len() > 8 * BYTES {
                break 'fill;
            }
            bits.extend(digits(c));
        }
    }
    bits.resize(8 * BYTES, 0);
    packed(&mut bits)
}

/// Bits as bytes, highest bit first, filled up with zeros.
fn packed(bits: &mut Vec<u8>) -> Vec<u8> {
    bits.resize(bits.len().div_ceil(8) * 8, 0);
    bits.chunks(8)
        .map(|b| b.iter().fold(0, |byte, bit| byte << 1 | bit))
        .collect()
}

fn digits(bits: &'static str) -> impl Iterator<Item = u8> {
    bits.bytes().map(|b| b - b'0')
}
