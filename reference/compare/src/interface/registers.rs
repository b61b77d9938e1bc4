//! Every register written and read after an opening: by the default plan of
//! document 02, F-9, after a refused opening too, and by mask 007F.

use super::call::{Call, Open, Take};
use super::checker::Checker;
use super::expected::expected;
use super::layout::{IMAGE_WORDS, OK, RESULT_WORDS, WRONG_CYCLE, WRONG_PLAN};
use super::prefilled;
use cases::{Random, Stream};
use reader::limits::{CLOCK_LIMIT, RECORD_WORDS};
use reader::Record;
use std::io;

/// A name; mask, CSR, FEEN, CNT and cycle of an opening; the number that it
/// is answered with; how many registers exist then, from address 0 on.
type Opening = (&'static str, [u64; 5], u64, u8);

const OPENINGS: [Opening; 5] = [
    ("default plan", [0x07FF, 0, 2, 5, 0], OK, 11),
    ("mask 007F", [0x007F, 0, 2, 5, 0], OK, 7),
    ("refused plan", [0x007F, 0, 2, 7, 0], WRONG_PLAN, 11),
    ("refused mask", [0x1_007F, 0, 2, 5, 0], WRONG_PLAN, 11),
    (
        "refused cycle",
        [0x007F, 0, 2, 5, CLOCK_LIMIT],
        WRONG_CYCLE,
        11,
    ),
];

pub fn check(checker: &mut Checker) -> io::Result<()> {
    let mut random = Random::new(0xF9);
    for (name, numbers, number, present) in OPENINGS {
        let name = format!("registers, {name}");
        let open = opening(numbers, &mut random);
        checker.check_number(format!("{name}, opening"), number, &open)?;
        let Call::Open(open) = expected(&open).after else {
            unreachable!("a call stays what it is");
        };
        let taken = taking(open.image, &mut random);
        let free = taken.free as usize;
        let (_, after) = checker.take(name.clone(), taken)?;
        let words = after.list[free..].chunks_exact(RECORD_WORDS);
        let records = words.map(|words| Record::from_words([words[0], words[1]]));
        let fault = records
            .ne(records_by(present))
            .then(|| "the separate reader's are others than the case says".to_string());
        checker.report(format!("{name}, its records"), fault)?;
    }
    Ok(())
}

fn opening([mask, csr, feen, cnt, cycle]: [u64; 5], random: &mut Random) -> Call {
    Call::Open(Open {
        mask,
        csr,
        feen,
        cnt,
        cycle,
        image: prefilled::words(random, IMAGE_WORDS),
    })
}

/// What is written to each address.
const WRITTEN: u16 = 0xA7C3;

/// Every address written, then every address read, with room for just the
/// records of this.
fn taking(image: Vec<u64>, random: &mut Random) -> Take {
    let stream = (0..16).fold(Stream::new(), |stream, address| {
        stream.wr_register(address, WRITTEN)
    });
    let stream = (0..16).fold(stream, Stream::rd_register);
    let free = 3;
    Take {
        image,
        input: stream.bytes(),
        first: 0,
        count: stream.bits.len() as u64,
        store: prefilled::store(random),
        tray: prefilled::tray(random),
        list: prefilled::words(random, free + 32 * RECORD_WORDS),
        free: free as u64,
        result: prefilled::words(random, RESULT_WORDS),
    }
}

/// The records from cycle 0 on. A missing register has flag 08, and a read of
/// it gives 0.
fn records_by(present: u8) -> Vec<Record> {
    let mut records = Vec::new();
    for kind in [0x20, 0x21] {
        for address in 0..16 {
            let exists = address < present;
            let bits = match (kind, address) {
                (0x20, _) => WRITTEN,
                // CSR bits 8 to 10 read as the warnings.
                (_, 0) => WRITTEN & !0x0700,
                _ if exists => WRITTEN,
                _ => 0,
            };
            records.push(Record {
                time: 33 * records.len() as u64 + 32,
                kind,
                flags: if exists { 0x01 } else { 0x08 },
                value: u32::from(address) << 16 | u32::from(bits),
            });
        }
    }
    records
}
