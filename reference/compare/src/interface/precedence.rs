//! A call that is unfit in several ways: the lowest number is answered.

use super::call::{Call, Take};
use super::checker::Checker;
use super::fit;
use super::image::image;
use super::layout::{
    at, CLOCK_OVER, IMAGE_WORDS, INPUT_BYTES, UNSOUND, WRONG_BUFFERS, WRONG_RANGE,
};
use cases::Random;
use reader::limits::{CLOCK_LIMIT, STORE_WORDS, TRAY_BYTES};
use std::io;

/// One way of being unfit.
struct Defect {
    number: u64,
    name: &'static str,
    make: fn(&mut Take),
}

const fn defect(number: u64, name: &'static str, make: fn(&mut Take)) -> Defect {
    Defect { number, name, make }
}

/// In such an order that none undoes an earlier one of another number: the
/// clock's defect looks at the count, and the image loses words at the end.
const DEFECTS: [Defect; 32] = [
    defect(WRONG_RANGE, "input too long", |t| {
        t.input.resize(INPUT_BYTES + 1, 0xE9);
    }),
    defect(WRONG_RANGE, "range one past the end", |t| {
        t.count = bits(t) - t.first + 1;
    }),
    defect(WRONG_RANGE, "first bit past the end", |t| {
        (t.first, t.count) = (bits(t) + 1, 1);
    }),
    defect(WRONG_RANGE, "first bit at the largest number", |t| {
        (t.first, t.count) = (u64::MAX, 1);
    }),
    defect(WRONG_RANGE, "sum of first bit and count wraps", |t| {
        t.count = 0_u64.wrapping_sub(t.first);
    }),
    defect(CLOCK_OVER, "one cycle too few", |t| {
        raise_next(t, (CLOCK_LIMIT + 1).saturating_sub(t.count));
    }),
    defect(CLOCK_OVER, "no cycle left", |t| raise_next(t, CLOCK_LIMIT)),
    defect(WRONG_BUFFERS, "store one short", |t| {
        t.store.truncate(STORE_WORDS - 1);
    }),
    defect(WRONG_BUFFERS, "store one long", |t| t.store.push(9)),
    defect(WRONG_BUFFERS, "no store", |t| t.store.clear()),
    defect(WRONG_BUFFERS, "tray one short", |t| {
        t.tray.truncate(TRAY_BYTES - 1);
    }),
    defect(WRONG_BUFFERS, "tray one long", |t| t.tray.push(9)),
    defect(WRONG_BUFFERS, "no tray", |t| t.tray.clear()),
    defect(WRONG_BUFFERS, "result one short", |t| t.result.truncate(2)),
    defect(WRONG_BUFFERS, "result one long", |t| t.result.push(9)),
    defect(WRONG_BUFFERS, "no result", |t| t.result.clear()),
    defect(WRONG_BUFFERS, "free word one past the end", |t| {
        t.free = t.list.len() as u64 + 1;
    }),
    defect(WRONG_BUFFERS, "free word at the largest number", |t| {
        t.free = u64::MAX;
    }),
    defect(WRONG_BUFFERS, "no list", |t| t.list.clear()),
    defect(UNSOUND, "another layout", |t| t.image[at::LAYOUT] = 1),
    defect(UNSOUND, "phase beyond its width", |t| {
        t.image[at::PHASE] = 5;
    }),
    defect(UNSOUND, "L1ID beyond its width", |t| {
        t.image[at::L1ID] = 256;
    }),
    defect(UNSOUND, "plan that would not open", |t| {
        t.image[at::CSR] = t.image[at::FEEN];
    }),
    defect(UNSOUND, "base beyond the next cycle", |t| {
        t.image[at::BASE] = u64::MAX;
    }),
    defect(UNSOUND, "pointer at 128", |t| t.image[at::WRITES] = 128),
    defect(UNSOUND, "missing register that holds 1", |t| {
        t.image[at::REGISTERS + 15] = 1;
    }),
    defect(UNSOUND, "image one short", |t| {
        t.image.truncate(IMAGE_WORDS - 1);
    }),
    defect(UNSOUND, "image one long", |t| t.image.push(0)),
    defect(UNSOUND, "no image", |t| t.image.clear()),
    defect(UNSOUND, "layout 2", |t| t.image[at::LAYOUT] = 2),
    defect(UNSOUND, "earlier kind beyond its width", |t| {
        t.image[at::EARLIER_KIND] = 256;
    }),
    defect(UNSOUND, "earlier record at the next cycle", |t| {
        t.image[at::EARLIER_TIME] = t.image[at::NEXT];
    }),
];

/// Those without an earlier record's, which document 02, F-5, brought.
const WITHOUT_EARLIER: usize = 29;

fn bits(take: &Take) -> u64 {
    take.input.len() as u64 * 8
}

fn raise_next(take: &mut Take, cycle: u64) {
    let next = &mut take.image[at::NEXT];
    *next = cycle.max(*next);
}

pub fn check(checker: &mut Checker) -> io::Result<()> {
    let mut random = Random::new(0x9A12);
    for (phase, state) in fit::states() {
        let image = image(&state);
        for (place, one) in DEFECTS.iter().enumerate() {
            let fit = fit::call(&image, &mut random);
            together(checker, &phase, fit, &[one])?;
            for other in DEFECTS[place + 1..]
                .iter()
                .filter(|defect| defect.number != one.number)
            {
                let fit = fit::call(&image, &mut random);
                together(checker, &phase, fit, &[one, other])?;
            }
        }
        // One of each number, in turn.
        for (turns, defects) in [(20, &DEFECTS[..WITHOUT_EARLIER]), (26, &DEFECTS)] {
            for turn in 0..turns {
                let of = |number| of_number(defects, number, turn);
                let all = [WRONG_RANGE, CLOCK_OVER, WRONG_BUFFERS, UNSOUND].map(of);
                let fit = fit::call(&image, &mut random);
                together(checker, &phase, fit, &all)?;
                let fit = fit::call(&image, &mut random);
                together(checker, &phase, fit, &all[..3])?;
            }
        }
    }
    Ok(())
}

fn of_number(defects: &[Defect], number: u64, turn: usize) -> &Defect {
    let of_number: Vec<_> = defects
        .iter()
        .filter(|defect| defect.number == number)
        .collect();
    of_number[turn % of_number.len()]
}

fn together(
    checker: &mut Checker,
    phase: &str,
    mut take: Take,
    defects: &[&Defect],
) -> io::Result<()> {
    for defect in defects {
        (defect.make)(&mut take);
    }
    let names: Vec<_> = defects.iter().map(|defect| defect.name).collect();
    let lowest = defects.iter().map(|defect| defect.number).min();
    let name = format!("defects, {phase}, {}", names.join(" and "));
    checker.check_number(name, lowest.unwrap_or(0), &Call::Take(take))
}
