//! Openings by many plans and at many cycles.

use super::call::{Call, Open};
use super::checker::Checker;
use super::layout::{IMAGE_WORDS, OK, UNSOUND, WRONG_CYCLE, WRONG_PLAN};
use super::prefilled;
use cases::Random;
use reader::limits::CLOCK_LIMIT;
use std::io;

/// Mask, CSR, FEEN, CNT.
pub type Numbers = [u64; 4];

/// Plans that open. The default has mask 07FF (document 02, F-9), and had 007F.
pub const FIT_PLANS: [Numbers; 11] = [
    [0x07FF, 0, 2, 5],
    [0x07FF, 10, 9, 8],
    [0x07FF, 0, 2, 7],
    [0x007F, 0, 2, 5],
    [0x007F, 6, 4, 3],
    [0xFFFF, 15, 14, 13],
    [0x8005, 0, 2, 15],
    [0x0007, 2, 1, 0],
    [0xFFFF, 0, 2, 15],
    [0x0025, 5, 0, 2],
    [0x7FFF, 14, 3, 8],
];

/// Plans that do not: two addresses alike, one out of the mask or beyond
/// it, or a mask of more than sixteen bits.
pub const WRONG_PLANS: [Numbers; 38] = [
    [0x07FF, 0, 0, 5],
    [0x07FF, 0, 5, 5],
    [0x07FF, 5, 2, 5],
    [0x07FF, 3, 3, 3],
    [0x07FF, 11, 2, 5],
    [0x07FF, 0, 11, 5],
    [0x07FF, 0, 2, 11],
    [0x07FF, 0, 2, 15],
    [0x07FE, 0, 2, 5],
    [0x07FB, 0, 2, 5],
    [0x07DF, 0, 2, 5],
    [0x1_07FF, 0, 2, 5],
    [(1 << 32) + 0x7FF, 0, 2, 5],
    [0x007F, 0, 0, 5],
    [0x007F, 0, 5, 5],
    [0x007F, 5, 2, 5],
    [0x007F, 3, 3, 3],
    [0x007F, 7, 2, 5],
    [0x007F, 0, 7, 5],
    [0x007F, 0, 2, 7],
    [0x007F, 0, 2, 10],
    [0x007F, 0, 2, 15],
    [0x007E, 0, 2, 5],
    [0x007B, 0, 2, 5],
    [0x005F, 0, 2, 5],
    [0, 0, 2, 5],
    [0xFFFF, 0, 2, 16],
    [0xFFFF, 16, 2, 5],
    [0xFFFF, 0, 255, 5],
    [0xFFFF, 256, 2, 5],
    [0xFFFF, 0, 258, 5],
    [0xFFFF, 0, (1 << 32) + 2, 5],
    [0xFFFF, 0, 2, u64::MAX],
    [0x1_0000, 0, 2, 5],
    [0x1_0000, 0, 2, 16],
    [0x1_007F, 0, 2, 5],
    [(1 << 32) + 0x7F, 0, 2, 5],
    [u64::MAX, 0, 2, 5],
];

const CYCLES: [u64; 10] = [
    0,
    1,
    1 << 32,
    CLOCK_LIMIT - 2,
    CLOCK_LIMIT - 1,
    CLOCK_LIMIT,
    CLOCK_LIMIT + 1,
    1 << 63,
    u64::MAX - 1,
    u64::MAX,
];

const LENGTHS: [usize; 5] = [0, 1, IMAGE_WORDS - 1, IMAGE_WORDS, IMAGE_WORDS + 1];

pub fn check(checker: &mut Checker) -> io::Result<()> {
    let mut random = Random::new(0x09E7);
    let fit = FIT_PLANS.map(|plan| (plan, true));
    let wrong = WRONG_PLANS.map(|plan| (plan, false));
    for (plan, opens) in fit.into_iter().chain(wrong) {
        for cycle in CYCLES {
            for length in LENGTHS {
                let number = if !opens {
                    WRONG_PLAN
                } else if cycle >= CLOCK_LIMIT {
                    WRONG_CYCLE
                } else if length != IMAGE_WORDS {
                    UNSOUND
                } else {
                    OK
                };
                let (name, call) = opening(plan, cycle, length, &mut random);
                checker.check_number(name, number, &call)?;
            }
        }
    }
    addresses(checker, &mut random)
}

/// Every three of many addresses.
fn addresses(checker: &mut Checker, random: &mut Random) -> io::Result<()> {
    let addresses = [
        0,
        1,
        2,
        5,
        7,
        10,
        11,
        14,
        15,
        16,
        18,
        255,
        256,
        258,
        (1 << 32) + 2,
        u64::MAX,
    ];
    for mask in [0x007F, 0x07FF, 0x8025, 0xFFFF] {
        for csr in addresses {
            for feen in addresses {
                for cnt in addresses {
                    let plan = [mask, csr, feen, cnt];
                    let (name, call) = opening(plan, 5, IMAGE_WORDS, random);
                    checker.check(name, &call)?;
                }
            }
        }
    }
    Ok(())
}

fn opening(
    [mask, csr, feen, cnt]: Numbers,
    cycle: u64,
    length: usize,
    random: &mut Random,
) -> (String, Call) {
    let name = format!(
        "opening, mask {mask:#X}, CSR {csr}, FEEN {feen}, CNT {cnt}, cycle {cycle}, \
         image of {length} words"
    );
    let open = Open {
        mask,
        csr,
        feen,
        cnt,
        cycle,
        image: prefilled::words(random, length),
    };
    (name, Call::Open(open))
}
