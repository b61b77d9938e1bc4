//! More than one hit (document 02, F-13): clean streams, and the same with
//! several bits inverted, spaced as the request asks; each cut into calls at
//! random, from one sound state that hunts in RunMode with an empty window.
//!
//! That the separate reader records the commands that no inverted bit affects
//! alike in both runs is a check of its own.

use super::checker::Checker;
use super::cut::{run, Carried};
use super::image::image;
use super::prefilled;
use super::states::{random_state, PLANS};
use cases::spaced::{spaced_hits, Spaced};
use cases::Random;
use reader::limits::CLOCK_LIMIT;
use reader::{Recogniser, Record, State};
use std::io;

/// One item in so many has a hit, in turn.
const ONE_HIT_IN: [u64; 4] = [1, 2, 4, 10];

/// Streams, some with each plan and each rate.
pub const STREAMS: u64 = 12 * ONE_HIT_IN.len() as u64 * PLANS.len() as u64;

const SEED: u64 = 0x1F4C_EF13_0000;

pub fn check(checker: &mut Checker) -> io::Result<()> {
    for number in 0..STREAMS {
        let mut random = Random::new(SEED + number);
        let (state, spaced) = start(&mut random, number);
        let carried = Carried {
            image: image(&state).to_vec(),
            store: prefilled::store(&mut random),
            tray: prefilled::tray(&mut random),
        };
        let mut taken = |what: &str, bits: &[bool]| {
            let name = format!("hits {number}, {what}");
            run(checker, &name, bits, carried.clone(), &mut random)
        };
        let clean = taken("clean", &spaced.clean.bits)?;
        let damaged = taken("damaged", &spaced.damaged().bits)?;
        let fault = fault(&spaced, state.next_cycle, &clean.records, &damaged.records);
        checker.report(format!("hits {number}, what is not hit"), fault)?;
    }
    Ok(())
}

/// The state and the stream of a number.
pub fn start(random: &mut Random, number: u64) -> (State, Spaced) {
    let rates = ONE_HIT_IN.len() as u64;
    let plan = PLANS[(number / rates % PLANS.len() as u64) as usize];
    let mut state = random_state(random, plan);
    state.recogniser = Recogniser::IDLE;
    state.run_mode = true;
    let commands = 3 + random.below(30) as usize;
    let spaced = spaced_hits(random, commands, ONE_HIT_IN[(number % rates) as usize]);
    (state, spaced)
}

/// What the records of both runs, from this cycle on, have wrong of the
/// commands that no inverted bit affects.
pub fn fault(
    spaced: &Spaced,
    start: u64,
    clean: &[[u64; 2]],
    damaged: &[[u64; 2]],
) -> Option<String> {
    let times = spaced.unaffected.iter().map(|&last| start + last as u64);
    // The clock may end within the stream.
    let times: Vec<u64> = times.filter(|&time| time < CLOCK_LIMIT).collect();
    let [clean, damaged] = [clean, damaged].map(|records| unnumbered(records, &times));
    let found = clean.iter().map(|record| record.time);
    (!found.eq(times) || clean != damaged)
        .then(|| format!("the separate reader has {clean:X?} and {damaged:X?}"))
}

/// The records of these times, without the trigger and bunch numbers, which
/// may differ.
fn unnumbered(records: &[[u64; 2]], times: &[u64]) -> Vec<Record> {
    let records = records.iter().map(|&words| Record::from_words(words));
    let records = records.filter(|record| times.contains(&record.time));
    records
        .map(|record| Record {
            value: record.value & !0xFFFF,
            ..record
        })
        .collect()
}
