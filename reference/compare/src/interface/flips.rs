//! Which bit of an LV1 was hit (document 02, F-1): every window, and an LV1
//! with each bit hit, in calls that part its bits at every place.

use super::call::Take;
use super::checker::Checker;
use super::image::image;
use super::layout::RESULT_WORDS;
use super::prefilled;
use cases::code::{FLIPPED_LV1, LV1, LV1_TAIL};
use cases::{Random, Stream};
use reader::limits::RECORD_WORDS;
use reader::record::{flag, kind};
use reader::{Plan, Recogniser, Record, State};
use std::io;

/// The next cycle, and numbers for the counters that fill the value's low
/// half with ones and zeros.
const CYCLE: u64 = 1_000;
const BASE: u64 = 830;
const L1ID: u32 = 0xA5;

pub fn check(checker: &mut Checker) -> io::Result<()> {
    let mut random = Random::new(0xF1);
    for run_mode in [true, false] {
        for window in 0..1 << 5 {
            for bit in [false, true] {
                last_bit(checker, window, bit, run_mode, &mut random)?;
            }
        }
        for (position, bits) in lv1s() {
            for cut in 0..=bits.len() {
                parted(checker, position, bits, cut, run_mode, &mut random)?;
            }
        }
    }
    Ok(())
}

/// The exact LV1, one with each bit hit, and one whose first bit is the 0 of
/// an empty window; each with its position.
fn lv1s() -> Vec<(u32, &'static str)> {
    let flipped = (1..).zip(FLIPPED_LV1);
    [(0, LV1), (1, LV1_TAIL)]
        .into_iter()
        .chain(flipped)
        .collect()
}

/// One bit after any window.
fn last_bit(
    checker: &mut Checker,
    window: u8,
    bit: bool,
    run_mode: bool,
    random: &mut Random,
) -> io::Result<()> {
    let name = format!(
        "window {window:05b}, then {}, {}",
        u8::from(bit),
        mode(run_mode)
    );
    let input = Stream::new().raw(&[bit]).bytes();
    let mut take = taking(&hunting(window, run_mode), input, random);
    take.count = 1;
    checker.take(name, take)?;
    Ok(())
}

/// The bits of an LV1 in two calls. That the separate reader tells the
/// position that the case says is a check of its own.
fn parted(
    checker: &mut Checker,
    position: u32,
    bits: &str,
    cut: usize,
    run_mode: bool,
    random: &mut Random,
) -> io::Result<()> {
    let name = format!("LV1 {bits} cut at {cut}, {}", mode(run_mode));
    let cut = cut as u64;
    let mut take = taking(
        &hunting(0, run_mode),
        Stream::new().pattern(bits).bytes(),
        random,
    );
    let mut records = Vec::new();
    for (first, count) in [(0, cut), (cut, bits.len() as u64 - cut)] {
        (take.first, take.count) = (first, count);
        let (_, after) = checker.take(format!("{name}, from {first}"), take.clone())?;
        let written = RECORD_WORDS * after.result[1] as usize;
        let words = after.list[take.free as usize..][..written].chunks_exact(RECORD_WORDS);
        records.extend(words.map(|words| Record::from_words([words[0], words[1]])));
        take = after;
    }
    let expected = lv1(position, CYCLE + bits.len() as u64 - 1, run_mode);
    let fault = (records != [expected]).then(|| format!("the separate reader has {records:X?}"));
    checker.report(format!("{name}, its record"), fault)
}

fn mode(run_mode: bool) -> &'static str {
    if run_mode {
        "in RunMode"
    } else {
        "out of RunMode"
    }
}

fn hunting(window: u8, run_mode: bool) -> State {
    let mut state = State::start(Plan::DEFAULT, CYCLE);
    state.base_cycle = BASE;
    state.l1id = L1ID;
    state.run_mode = run_mode;
    state.recogniser = Recogniser::Hunting { window };
    state
}

/// A call with room for two records.
fn taking(state: &State, input: Vec<u8>, random: &mut Random) -> Take {
    let free = 3;
    Take {
        image: image(state).to_vec(),
        input,
        first: 0,
        count: 0,
        store: prefilled::store(random),
        tray: prefilled::tray(random),
        list: prefilled::words(random, free + 2 * RECORD_WORDS),
        free: free as u64,
        result: prefilled::words(random, RESULT_WORDS),
    }
}

fn lv1(position: u32, time: u64, run_mode: bool) -> Record {
    let flip = if position == 0 { 0 } else { flag::FLIP };
    let (flags, counters) = if run_mode {
        let bunch = (time - BASE) as u32 % 256;
        (flag::ACTED_ON | flag::SENT, L1ID * 256 + bunch)
    } else {
        (0, 0)
    };
    Record {
        time,
        kind: kind::LV1,
        flags: flags | flip,
        value: position * 65_536 + counters,
    }
}
