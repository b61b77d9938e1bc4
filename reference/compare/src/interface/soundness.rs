//! Each clause of soundness violated alone, and kept just so, in each phase.

use super::call::Call;
use super::checker::Checker;
use super::fit;
use super::image::{image, Image};
use super::layout::{at, phase, OK, UNSOUND};
use super::states::EARLIER_KINDS;
use cases::Random;
use reader::limits::{CLOCK_LIMIT, FIFOS};
use reader::slow;
use std::io;

/// An image, what is special about it and whether its state is sound.
type Clause = (String, bool, Image);

pub fn check(checker: &mut Checker) -> io::Result<()> {
    let mut random = Random::new(0x50D);
    for (phase, state) in fit::states_by_both_plans() {
        let image = image(&state);
        let mut clauses = plans(&image);
        clauses.extend(cycles(&image));
        clauses.extend(pointers(&image));
        clauses.extend(registers(&image));
        clauses.extend(run_modes(&image));
        clauses.extend(recognisers(&image));
        check_all(checker, &phase, clauses, &mut random)?;
    }
    let mut random = Random::new(0x0005_0DF4);
    for (phase, state) in fit::states() {
        let image = image(&state);
        check_all(checker, &phase, groups(&image), &mut random)?;
        check_all(checker, &phase, last_groups(&image), &mut random)?;
    }
    let mut random = Random::new(0x0005_0DF5);
    for (phase, state) in fit::states_by_both_plans() {
        let image = image(&state);
        check_all(checker, &phase, earlier_records(&image), &mut random)?;
    }
    Ok(())
}

fn check_all(
    checker: &mut Checker,
    phase: &str,
    clauses: Vec<Clause>,
    random: &mut Random,
) -> io::Result<()> {
    for (name, sound, image) in clauses {
        let number = if sound { OK } else { UNSOUND };
        let name = format!("soundness, {phase}, {name}");
        let take = fit::call(&image, random);
        checker.check_number(name, number, &Call::Take(take))?;
    }
    Ok(())
}

/// The image with some words changed.
fn with(image: &Image, words: &[(usize, u64)]) -> Image {
    let mut changed = *image;
    for &(place, word) in words {
        changed[place] = word;
    }
    changed
}

fn clause(sound: bool, image: &Image, words: &[(usize, u64)]) -> Clause {
    let named: Vec<_> = words
        .iter()
        .map(|&(place, word)| format!("{} {word}", super::layout::name(place)))
        .collect();
    (named.join(", "), sound, with(image, words))
}

/// Three different addresses in the mask, or not. Registers that a smaller
/// mask leaves out hold 0, and the present CNT stays as it is.
fn plans(image: &Image) -> Vec<Clause> {
    let [mask, csr, feen, cnt] = [at::MASK, at::CSR, at::FEEN, at::CNT].map(|place| image[place]);
    let register = |address: u64| at::REGISTERS + address as usize;
    let without = |address: u64| [(at::MASK, mask & !(1 << address)), (register(address), 0)];
    let mut clauses = vec![
        clause(false, image, &[(at::CSR, feen)]),
        clause(false, image, &[(at::CSR, cnt)]),
        clause(false, image, &[(at::FEEN, csr)]),
        clause(false, image, &[(at::FEEN, cnt)]),
        clause(false, image, &[(at::CNT, csr)]),
        clause(false, image, &[(at::CNT, feen)]),
        clause(false, image, &without(csr)),
        clause(false, image, &without(feen)),
        clause(true, image, &without(1)),
        clause(true, image, &without(6)),
        clause(true, image, &without(10)),
        clause(true, image, &[(at::CSR, 6)]),
        clause(true, image, &[(at::FEEN, 6)]),
        clause(true, image, &[(at::MASK, 0x007F)]),
        clause(true, image, &[(at::MASK, 0x07FF)]),
        clause(true, image, &[(at::MASK, 0xFFFF)]),
        clause(true, image, &[(at::MASK, 0xFFFF), (at::CSR, 15)]),
        clause(true, image, &[(at::MASK, 0xFFFF), (at::FEEN, 15)]),
    ];
    for address in [7, 10, 11, 15, 16, 17, 18, 21, 32, 255] {
        let exists = exists(image, address);
        clauses.push(clause(exists, image, &[(at::CSR, address)]));
        clauses.push(clause(exists, image, &[(at::FEEN, address)]));
        if !is_variable(image) {
            clauses.push(clause(exists, image, &[(at::CNT, address)]));
        }
    }
    if !is_variable(image) {
        clauses.push(clause(false, image, &without(cnt)));
        clauses.push(clause(true, image, &[(at::CNT, 6)]));
    }
    clauses
}

/// Whether the mask has an address; none has one from 16 on.
fn exists(image: &Image, address: u64) -> bool {
    address < 16 && image[at::MASK] >> address & 1 == 1
}

/// Whether the phase has a length by CNT.
fn is_variable(image: &Image) -> bool {
    let commands = slow::WR_FRONT_END..=slow::WR_RECEIVER;
    image[at::PHASE] == phase::FIELD5 && commands.contains(&(image[at::COMMAND] as u8))
}

/// A next cycle at the end of the clock leaves no bits, so that the call
/// with it is rejected all the same; see the edges of the clock.
fn cycles(image: &Image) -> Vec<Clause> {
    let next = image[at::NEXT];
    let mut clauses = Vec::new();
    for base in [0, 1, next - 1, next] {
        clauses.push(clause(true, image, &[(at::BASE, base)]));
    }
    for base in [next + 1, next + 256, CLOCK_LIMIT, 1 << 63, u64::MAX] {
        clauses.push(clause(false, image, &[(at::BASE, base)]));
    }
    let last = CLOCK_LIMIT - 200;
    clauses.push(clause(true, image, &[(at::NEXT, last)]));
    clauses.push(clause(true, image, &[(at::NEXT, last), (at::BASE, last)]));
    for next in [CLOCK_LIMIT + 1, CLOCK_LIMIT + 200, 1 << 63, u64::MAX] {
        clauses.push(clause(false, image, &[(at::NEXT, next)]));
        clauses.push(clause(false, image, &[(at::NEXT, next), (at::BASE, next)]));
    }
    clauses
}

/// The earlier record's time is below the next cycle (document 02, F-5), with
/// a base as before or at the next cycle. With kind 0 there is none, and
/// nothing is asked of the time.
fn earlier_records(image: &Image) -> Vec<Clause> {
    let mut clauses = Vec::new();
    for next in [image[at::NEXT], image[at::NEXT] + 1, CLOCK_LIMIT - 200] {
        let past = [0, 1, next - 40, next - 2, next - 1];
        let ahead = [next, next + 1, CLOCK_LIMIT, 1 << 63, u64::MAX];
        for time in past.into_iter().chain(ahead) {
            for kind in EARLIER_KINDS {
                let words = [
                    (at::NEXT, next),
                    (at::EARLIER_TIME, time),
                    (at::EARLIER_KIND, kind.into()),
                ];
                let sound = kind == 0 || time < next;
                clauses.push(clause(sound, image, &words));
                let words = [&words[..], &[(at::BASE, next)]].concat();
                clauses.push(clause(sound, image, &words));
            }
        }
    }
    clauses
}

fn pointers(image: &Image) -> Vec<Clause> {
    let mut clauses = Vec::new();
    for place in at::WRITES..at::READS + FIFOS {
        for pointer in [0, 127, 128, 255] {
            clauses.push(clause(pointer < 128, image, &[(place, pointer)]));
        }
    }
    clauses
}

/// Missing registers hold 0; the others hold anything, but for the CNT that
/// a length goes by.
fn registers(image: &Image) -> Vec<Clause> {
    let mut clauses = Vec::new();
    for address in 0..16 {
        let place = at::REGISTERS + address as usize;
        for word in [0, 1, 0x0700, 0x8000, 0xFFFF] {
            if address != image[at::CNT] || !is_variable(image) {
                let sound = word == 0 || exists(image, address);
                clauses.push(clause(sound, image, &[(place, word)]));
            }
        }
    }
    clauses
}

fn run_modes(image: &Image) -> Vec<Clause> {
    let inside_slow = image[at::PHASE] >= phase::FIELD3;
    let mut clauses = Vec::new();
    for count in [0, 1, image[at::COUNT]] {
        let bits = [(at::COUNT, count), (at::SHIFT, 0), (at::HELD, 0)];
        for run_mode in [0, 1] {
            let sound = run_mode == 0 || !inside_slow;
            let words = [&bits[..], &[(at::RUN_MODE, run_mode)]].concat();
            clauses.push(clause(sound, image, &words));
        }
    }
    clauses.push(clause(true, image, &[(at::L1ID, 255)]));
    clauses
}

fn recognisers(image: &Image) -> Vec<Clause> {
    match image[at::PHASE] {
        phase::HUNTING => windows(image),
        phase::BODY | phase::FIELD3 => four_bits(image),
        phase::FIELD4 => [four_bits(image), commands(image, |_| true)].concat(),
        _ => field5(image),
    }
}

fn windows(image: &Image) -> Vec<Clause> {
    let window = |window| clause(window < 32, image, &[(at::SHIFT, window)]);
    (0..=64).chain([127, 128, 255]).map(window).collect()
}

/// Fewer than four bits are received, and the number held is below 2 to
/// their count.
fn four_bits(image: &Image) -> Vec<Clause> {
    let mut clauses = Vec::new();
    for count in 0..4 {
        let ends = [0, (1 << count) - 1, 1 << count, 16, 255];
        for held in ends {
            let sound = held < 1 << count;
            let words = [(at::COUNT, count), (at::SHIFT, held)];
            clauses.push(clause(sound, image, &words));
        }
    }
    for count in [4, 5, 255, 256, 258, 1 << 31, u64::from(u32::MAX)] {
        for held in [0, 3] {
            let words = [(at::COUNT, count), (at::SHIFT, held)];
            clauses.push(clause(false, image, &words));
        }
    }
    clauses
}

/// Each Field 3, sound where it is four bits wide and allowed.
fn commands(image: &Image, allowed: impl Fn(u8) -> bool) -> Vec<Clause> {
    let command = |command: u8| {
        let sound = command < 16 && allowed(command);
        // No bits held, as another command may keep fewer of them.
        let words = [
            (at::COMMAND, command.into()),
            (at::COUNT, 0),
            (at::SHIFT, 0),
            (at::HELD, 0),
        ];
        clause(sound, image, &words)
    };
    (0..=32).chain([64, 128, 255]).map(command).collect()
}

fn field5(image: &Image) -> Vec<Clause> {
    let mut clauses = commands(image, slow::has_field5);
    for address in [0, 6, 7, 10, 11, 15, 16, 17, 128, 255] {
        clauses.push(clause(address < 16, image, &[(at::ADDRESS, address)]));
    }
    clauses.extend(lengths(image));
    let command = image[at::COMMAND] as u8;
    let length = slow::field5_cycles(command, fit::CNT).unwrap_or(0);
    for count in 0..u64::from(length).min(28) {
        let below = 1_u64 << count;
        let kept = slow::keeps_field5(command);
        for held in [0, below - 1, below, u64::from(u32::MAX)] {
            let words = [(at::COUNT, count), (at::HELD, held)];
            clauses.push(clause(!kept || held < below, image, &words));
        }
    }
    clauses
}

/// The count just below the length and at it, by several CNT.
fn lengths(image: &Image) -> Vec<Clause> {
    let command = image[at::COMMAND] as u8;
    let place = at::REGISTERS + image[at::CNT] as usize;
    let mut clauses = Vec::new();
    for cnt in [0, 1, 7, 8, 0x0012, 0x1FFF, 0x2000, 0xE000, 0xE001, 0xFFFF] {
        let length = u64::from(slow::field5_cycles(command, cnt).unwrap_or(0));
        let counts = [0, length.saturating_sub(1), length, length + 1];
        for count in counts.into_iter().chain([1 << 31, u64::from(u32::MAX)]) {
            let words = [(place, cnt.into()), (at::COUNT, count), (at::HELD, 0)];
            clauses.push(clause(count < length, image, &words));
        }
    }
    clauses
}

/// What is held of an unfinished group (document 02, F-4): every byte, with
/// every count modulo 8 that the phase can have.
fn groups(image: &Image) -> Vec<Clause> {
    let counts = match image[at::PHASE] {
        phase::HUNTING => 1,
        phase::FIELD5 => field5_length(image, fit::CNT).min(8),
        _ => 4,
    };
    // Not in the first group alone, where the field has several.
    let whole = if is_variable(image) { 8 } else { 0 };
    let mut clauses = Vec::new();
    for count in 0..counts {
        for group in 0..=255 {
            let count = count + whole * (group % 18);
            clauses.push(group_clause(image, count, group));
        }
    }
    clauses
}

/// The same at the end of the longest Field 5.
fn last_groups(image: &Image) -> Vec<Clause> {
    if !is_variable(image) {
        return Vec::new();
    }
    let longest = with(image, &[(at::REGISTERS + image[at::CNT] as usize, 0xFFFF)]);
    let last = field5_length(&longest, 0xFFFF) - 8;
    let mut clauses = Vec::new();
    for count in 0..8 {
        for group in [0, (1 << count) - 1, 1 << count, 128, 255] {
            clauses.push(group_clause(&longest, last + count, group));
        }
    }
    clauses
}

fn field5_length(image: &Image, cnt: u16) -> u64 {
    slow::field5_cycles(image[at::COMMAND] as u8, cnt).map_or(0, u64::from)
}

/// Sound if the group is none of a front-end frame's, or is below 2 to its
/// cycles received. No other bits are held, whatever the count.
fn group_clause(image: &Image, count: u64, group: u64) -> Clause {
    let in_frame = image[at::PHASE] == phase::FIELD5
        && [slow::WR_FRONT_END, slow::RD_FRONT_END].contains(&(image[at::COMMAND] as u8));
    let words = [
        (at::COUNT, count),
        (at::SHIFT, 0),
        (at::HELD, 0),
        (at::GROUP, group),
    ];
    clause(!in_frame || group < 1 << (count % 8), image, &words)
}
