//! "The damage table", by brute force: every single inversion of many clean
//! streams, read from hunting with window 00000.
//!
//! Flag 20 (document 02, F-5) goes by the record before, in the same run. Of
//! the clean records only the first can have it, by the state's earlier
//! record, and it may differ in the affected record alone.

mod common;

use cases::Random;
use common::damage::{
    agree, damage, every_series, invert, zeros_between, Clean, Command, Counters,
};
use common::damage::{Command::*, ALL};
use common::{earlier, zeros_asked, Reader};
use reader::{take, Earlier, Record, State};
use std::ops::RangeInclusive;

#[test]
fn the_table_has_one_row_for_every_bit() {
    for command in ALL {
        for bit in 1..=command.bits() {
            damage(command, bit);
        }
    }
}

/// The table by commands is the one by kinds that flag 20 goes by.
#[test]
fn both_timing_tables_are_one() {
    for first in ALL {
        for second in ALL {
            let zeros = zeros_between(first, second) as i64;
            assert_eq!(zeros, zeros_asked(first.kind(), second.kind()));
        }
    }
}

struct Testbench {
    start: State,
    reader: Reader,
    inversions: u64,
    /// Clean runs and affected records with flag 20.
    flagged_runs: u64,
    flagged_hits: u64,
    /// The flags that are looked at.
    flags: u8,
}

/// The first cycle of the streams.
const START: u64 = 5_000;

impl Testbench {
    /// Counters that are about to wrap, to see them do so.
    fn new(run_mode: bool) -> Testbench {
        Testbench::after(Earlier::NONE, run_mode)
    }

    /// From a state that remembers this record.
    fn after(earlier: Earlier, run_mode: bool) -> Testbench {
        let mut reader = Reader::with_run_mode(run_mode);
        reader.state.next_cycle = START;
        reader.state.base_cycle = 4_750;
        reader.state.l1id = 254;
        reader.state.earlier = earlier;
        Testbench {
            start: reader.state.clone(),
            reader,
            inversions: 0,
            flagged_runs: 0,
            flagged_hits: 0,
            flags: 0xFF,
        }
    }

    /// The records of a list, with the flags that are looked at.
    fn seen<'a>(&self, words: &'a [u64]) -> impl Iterator<Item = Record> + 'a {
        let flags = self.flags;
        words.chunks(2).map(move |words| {
            let record = Record::from_words([words[0], words[1]]);
            self::seen(record, flags)
        })
    }

    fn read(&mut self, bytes: &[u8], length: usize, list: &mut [u64]) -> usize {
        let answer = take(
            self.start.clone(),
            bytes,
            0,
            length as u64,
            &mut self.reader.store,
            &mut self.reader.tray,
            list,
            0,
        );
        assert_eq!(answer.bits_taken, length as u64);
        answer.records_written as usize
    }

    /// Checks that the clean run has the paper's record for each command, and
    /// each inversion what the damage table says of it.
    fn check(&mut self, clean: &Clean) -> Result<(), String> {
        let start = self.start.next_cycle;
        let mut list = vec![0; 4 * clean.commands.len() + 8];

        // The clean run, and the counters ahead of each command.
        let mut counters = Counters::of(&self.start);
        let mut ahead = Vec::new();
        let mut expected = Vec::new();
        for (place, &(command, _)) in clean.commands.iter().enumerate() {
            let record = counters.record(command, clean.last_cycle(place, start));
            ahead.push(counters);
            counters.count(&record);
            expected.push(record);
        }
        let written = self.read(&clean.bytes, clean.length, &mut list);
        let records = self.seen(&list[..2 * written]);
        if !records.eq(expected.iter().map(|&record| seen(record, self.flags))) {
            return Err(format!("clean {:?}", clean.commands));
        }
        let mut close = expected.iter().map(|record| record.flags & 0x20 != 0);
        self.flagged_runs += u64::from(close.next() == Some(true));
        if clean.keeps_table && close.any(|close| close) {
            return Err(format!("clean {:?}, a later one too close", clean.commands));
        }

        let mut bytes = clean.bytes.clone();
        for inverted in 0..clean.length {
            self.inversions += 1;
            invert(&mut bytes, inverted);
            let written = self.read(&bytes, clean.length, &mut list);
            invert(&mut bytes, inverted);
            let damaged = self.seen(&list[..2 * written]);
            let run = Run {
                clean,
                expected: &expected,
                ahead: &ahead,
                start,
                flags: self.flags,
            };
            let mut hit = None;
            if !is_as_the_table_says(&run, inverted, damaged, &mut hit) {
                return Err(format!("{:?}, {inverted} inverted", clean.commands));
            }
            self.flagged_hits += u64::from(hit.is_some_and(|hit| hit.flags & 0x20 != 0));
        }
        Ok(())
    }

    /// Checks every such series of commands.
    fn every_series(
        &mut self,
        count: usize,
        more: RangeInclusive<usize>,
        ahead: RangeInclusive<usize>,
        after: &[usize],
    ) {
        every_series(count, more, ahead, after, |clean| {
            self.check(clean).unwrap();
        });
    }
}

/// A record with only the flags that are looked at.
fn seen(record: Record, flags: u8) -> Record {
    Record {
        flags: record.flags & flags,
        ..record
    }
}

/// A clean run: its stream and records, and the counters ahead of each.
struct Run<'a> {
    clean: &'a Clean,
    expected: &'a [Record],
    ahead: &'a [Counters],
    start: u64,
    flags: u8,
}

/// Whether the damaged records are the clean ones with the affected one
/// replaced or left out, but for the counters where they may differ. `hit` is
/// told what is recorded instead of the affected one.
fn is_as_the_table_says(
    run: &Run,
    inverted: usize,
    mut damaged: impl Iterator<Item = Record>,
    hit: &mut Option<Record>,
) -> bool {
    let Run {
        clean,
        expected,
        ahead,
        start,
        flags,
    } = *run;
    let affected = clean.affected(inverted);
    let (mut l1id_free, mut bunch_free) = (false, false);
    // A stronger claim besides: the numbers are those that the damaged run's
    // own records count.
    let mut counters = ahead[0];
    for (place, (&(command, _), record)) in clean.commands.iter().zip(expected).enumerate() {
        if let Some(affected) = affected.filter(|hit| hit.place == place) {
            (l1id_free, bunch_free) = (true, true);
            // The clean counters, but the record before it in its own run.
            let own = Counters {
                earlier: counters.earlier,
                ..ahead[place]
            };
            let Some(instead) = clean.instead(&affected, start, &own) else {
                continue;
            };
            counters.count(&instead);
            *hit = Some(instead);
            if damaged.next() != Some(seen(instead, flags)) {
                return false;
            }
            continue;
        }
        l1id_free &= command != Ecr;
        bunch_free &= command != Bcr;
        let Some(other) = damaged.next() else {
            return false;
        };
        let same = agree(&other, &seen(*record, flags), l1id_free, bunch_free);
        if !same || other != seen(counters.record(command, other.time), flags) {
            return false;
        }
        counters.count(&other);
    }
    damaged.next().is_none()
}

#[test]
fn single_commands_and_pairs() {
    let after: Vec<usize> = (0..=9).collect();
    for run_mode in [true, false] {
        let mut bench = Testbench::new(run_mode);
        bench.every_series(1, 0..=0, 0..=12, &after);
        bench.every_series(2, 0..=7, 0..=6, &after);
        assert_eq!(bench.inversions, 404_715);
    }
}

#[test]
fn triples() {
    let mut bench = Testbench::new(true);
    bench.every_series(3, 0..=7, 0..=6, &[0, 1, 2, 6]);
    assert_eq!(bench.inversions, 8_541_120);
}

#[test]
fn fours() {
    let mut bench = Testbench::new(true);
    bench.every_series(4, 0..=2, 0..=2, &[0, 3]);
    assert_eq!(bench.inversions, 4_072_275);
}

#[test]
fn long_streams() {
    let mut random = Random::new(3);
    for run_mode in [true, false] {
        let mut bench = Testbench::new(run_mode);
        for _ in 0..200 {
            let commands: Vec<Command> = (0..60).map(|_| ALL[random.below(5) as usize]).collect();
            let mut zeros = vec![random.below(4) as usize];
            for pair in commands.windows(2) {
                zeros.push(zeros_between(pair[0], pair[1]) + random.below(5) as usize);
            }
            zeros.push(random.below(9) as usize);
            bench.check(&Clean::new(&commands, &zeros)).unwrap();
        }
    }
}

/// What is recorded needs the zeros after BCR and ECR, one by one, and not
/// those after SYNC ahead of an LV1. Flag 20 shows these too: one that came
/// too close to a SYNC does not once the SYNC is damaged.
#[test]
fn which_zeros_are_needed() {
    let fasts = [(Bcr, 0), (Bcr, 1), (Ecr, 0)];
    assert_eq!(broken_gaps(!0x20), fasts);
    let with_sync = [(Sync, 0), (Sync, 1), (Sync, 2), (Sync, 3)];
    assert_eq!(broken_gaps(0xFF), [&fasts[..], &with_sync].concat());
}

/// Too few zeros after a command with which the damage table is false, as far
/// as these flags go.
fn broken_gaps(flags: u8) -> Vec<(Command, usize)> {
    let mut bench = Testbench::new(true);
    bench.flags = flags;
    let mut broken = Vec::new();
    for first in ALL {
        for second in ALL {
            for gap in 0..zeros_between(first, second) {
                // A command more, as damage can reach beyond the second.
                for third in ALL {
                    let zeros = [0, gap, zeros_between(second, third), 9];
                    if bench
                        .check(&Clean::new(&[first, second, third], &zeros))
                        .is_err()
                    {
                        broken.push((first, gap));
                    }
                }
            }
        }
    }
    broken.dedup();
    broken.sort_by_key(|&(first, gap)| (first as u8, gap));
    broken.dedup();
    broken
}

/// Kinds of the earlier record: none, each that asks for zeros, others, and
/// two that no record has.
const EARLIER: [u8; 13] = [
    0x00, 0x01, 0x11, 0x12, 0x14, 0x18, 0x1F, 0x20, 0x24, 0x28, 0x2F, 0x77, 0xFF,
];

/// From states with an earlier record, which ends so many cycles ahead of the
/// next one: one to three commands.
#[test]
fn after_an_earlier_record() {
    let (mut inversions, mut runs, mut hits) = (0, 0, 0);
    for kind in EARLIER {
        for back in [1, 2, 3, 4, 5, 6, 4_000] {
            for run_mode in [true, false] {
                let mut bench = Testbench::after(earlier(START - back, kind), run_mode);
                bench.every_series(1, 0..=0, 0..=6, &[0, 1, 2, 6]);
                bench.every_series(2, 0..=4, 0..=4, &[0, 2]);
                bench.every_series(3, 0..=1, 0..=2, &[1]);
                let asks = |kinds: &[u8]| kinds.contains(&kind);
                // A whole command is too close only where zeros are asked.
                let flagged = back <= 4 && asks(&[0x18]) || back <= 2 && asks(&[0x11]);
                let flagged = flagged || back <= 1 && asks(&[0x12]);
                assert_eq!(bench.flagged_runs > 0, flagged, "{kind:02X} {back}");
                inversions += bench.inversions;
                runs += bench.flagged_runs;
                hits += bench.flagged_hits;
            }
        }
    }
    // Clean runs and affected records with flag 20 are many.
    assert_eq!((inversions, runs, hits), (13_241_046, 7_808, 579_988));
}

/// A state whose earlier record lies ahead of cycle 0's bits: nothing is
/// subtracted from a cycle that is small.
#[test]
fn after_an_earlier_record_in_the_first_cycles() {
    for kind in EARLIER {
        for next in 1..=4 {
            for time in 0..next {
                let mut bench = Testbench::after(earlier(time, kind), true);
                bench.start.next_cycle = next;
                bench.start.base_cycle = 0;
                bench.every_series(1, 0..=0, 0..=4, &[0, 3]);
                bench.every_series(2, 0..=1, 0..=2, &[0]);
            }
        }
    }
}

/// No damaged stream begins a Slow: RunMode stays and no Slow is recorded.
/// (The comparisons above would show a Slow's record; this shows RunMode.)
#[test]
fn no_damaged_stream_leaves_run_mode() {
    let mut bench = Testbench::new(true);
    for first in ALL {
        for second in ALL {
            let zeros = [3, zeros_between(first, second), 12];
            let clean = Clean::new(&[first, second], &zeros);
            for inverted in 0..clean.length {
                let mut bytes = clean.bytes.clone();
                invert(&mut bytes, inverted);
                bench.reader.state = bench.start.clone();
                bench.reader.read_part(&bytes, 0, clean.length as u64, 20);
                assert!(bench.reader.state.run_mode);
            }
        }
    }
}
