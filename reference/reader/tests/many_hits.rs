//! More than one hit (document 02, F-13), by brute force: choices of inverted
//! bits of clean streams, read from hunting with window 00000.

mod common;

use cases::spaced::{spaced_hits, Spaced};
use cases::{fixed, Case, Random, Stream};
use common::damage::{every_series, invert, zeros_between, Clean, Command, Counters};
use common::damage::{Command::*, ALL, DAMAGE, ZEROS_AHEAD};
use common::hits::{as_said, is_spaced, is_spaced_by_items, predicted, Run, Seen};
use common::{earlier, rec, Reader};
use reader::limits::CLOCK_LIMIT;
use reader::{hex_line, Earlier, Record, State, Warnings};
use std::collections::BTreeSet;

/// The bits of the next call, of so many that are left, and the records that
/// its list has room for.
type Cut<'a> = &'a mut dyn FnMut(u64) -> (u64, usize);

/// In as few calls as can be.
fn uncut(left: u64) -> (u64, usize) {
    (left, 4)
}

/// Anywhere, calls that take no bit among them.
fn cut_at_random(random: &mut Random) -> impl FnMut(u64) -> (u64, usize) + '_ {
    |left| (random.below(left + 1), 1 + random.below(3) as usize)
}

/// How often things came up in choices that meet the premise.
#[derive(Debug, Default, PartialEq)]
struct Tally {
    /// By the count of inverted bits, the last with six or more.
    choices: [u64; 7],
    /// Choices with two or more affected commands.
    several_affected: u64,
    /// Choices with an inverted zero that affects nothing.
    harmless: u64,
    /// Choices where numbers agreed again at a reset, and then differed anew.
    again: u64,
    /// All records and commands that were seen.
    seen: Seen,
}

impl Tally {
    fn add(&mut self, other: Tally) {
        let pairs = self.choices.iter_mut().zip(other.choices);
        pairs.for_each(|(sum, count)| *sum += count);
        self.several_affected += other.several_affected;
        self.harmless += other.harmless;
        self.again += other.again;
        self.seen.add(other.seen);
    }

    /// Nothing that the statement speaks of is missing.
    fn has_at_least(&self, least: u64) {
        let seen = &self.seen;
        for count in [
            self.several_affected,
            self.again,
            seen.left_out,
            seen.ended,
            seen.other_trigger,
            seen.other_bunch,
            seen.other_counters,
            seen.too_close,
        ] {
            assert!(count >= least, "{self:?}");
        }
    }

    fn count(&mut self, hits: usize, seen: Seen) {
        self.choices[hits.min(6)] += 1;
        self.several_affected += u64::from(seen.affected > 1);
        self.harmless += u64::from(seen.affected < hits as u64);
        self.again += u64::from(seen.again > 0);
        self.seen.add(seen);
    }
}

struct Bench {
    start: State,
    reader: Reader,
    tally: Tally,
    /// Choices by the count of inverted bits, with the premise not met and met.
    choices: [[u64; 2]; 7],
}

impl Bench {
    fn new(start: State) -> Bench {
        Bench {
            reader: Reader::new(start.clone()),
            start,
            tally: Tally::default(),
            choices: [[0; 2]; 7],
        }
    }

    /// Counters that are about to wrap, at another cycle than 0.
    fn running() -> Bench {
        let mut state = Reader::running().state;
        state.next_cycle = 5_000;
        state.base_cycle = 4_750;
        state.l1id = 254;
        Bench::new(state)
    }

    /// Reads a stream with these bits inverted. A call ends at each of these
    /// places, where the counters are noted, and where else `cut` says.
    fn read(
        &mut self,
        clean: &Clean,
        inverted: &[usize],
        ends: impl Iterator<Item = usize>,
        cut: Cut,
    ) -> Run {
        let mut bytes = clean.bytes.clone();
        for &bit in inverted {
            invert(&mut bytes, bit);
        }
        self.reader.state.clone_from(&self.start);
        let mut run = Run {
            start: self.start.next_cycle,
            records: Vec::with_capacity(clean.commands.len() + 1),
            counters: vec![Counters::of(&self.start)],
        };
        let mut from = 0;
        for end in ends {
            while from < end as u64 {
                let (count, room) = cut(end as u64 - from);
                let records = self.reader.read_part(&bytes, from, count, room);
                run.records.extend(records);
                from += count;
            }
            run.counters.push(Counters::of(&self.reader.state));
        }
        run
    }

    /// A run whose calls end at each command's end at least.
    fn run(&mut self, clean: &Clean, inverted: &[usize], cut: Cut) -> Run {
        self.read(clean, inverted, clean.ends(), cut)
    }

    /// Whether a run has the same records and ends with the same counters in
    /// calls that end anywhere.
    fn is_same_cut_anywhere(
        &mut self,
        clean: &Clean,
        inverted: &[usize],
        run: &Run,
        cut: Cut,
    ) -> bool {
        let other = self.read(clean, inverted, [clean.length].into_iter(), cut);
        other.records == run.records && other.counters.last() == run.counters.last()
    }

    /// The clean run, which has the paper's record for each command.
    fn clean_run(&mut self, clean: &Clean, cut: Cut) -> Run {
        let run = self.run(clean, &[], cut);
        assert_eq!(run, predicted(clean, &[], &self.start));
        assert!(clean.keeps_table);
        let mut later = run.records.iter().skip(1);
        assert!(later.all(|record| record.flags & 0x20 == 0));
        run
    }

    /// Compares both forms of the premise, and counts.
    fn meets_premise(&mut self, clean: &Clean, inverted: &[usize]) -> bool {
        let met = is_spaced(clean, inverted);
        let by_items = is_spaced_by_items(clean, inverted);
        assert_eq!(met, by_items, "{:?}, {inverted:?}", clean.commands);
        self.choices[inverted.len().min(6)][usize::from(met)] += 1;
        met
    }

    /// Checks a choice that meets the premise, and answers its run.
    fn check(&mut self, clean: &Clean, clean_run: &Run, inverted: &[usize], cut: Cut) -> Run {
        let damaged = self.run(clean, inverted, cut);
        let context = || format!("{:?}, {inverted:?} inverted", clean.commands);
        let expected = predicted(clean, inverted, &self.start);
        assert_eq!(damaged, expected, "{}", context());
        let seen = as_said(clean, inverted, clean_run, &damaged);
        let seen = seen.unwrap_or_else(|| panic!("{}", context()));
        self.tally.count(inverted.len(), seen);
        self.check_rest(clean, inverted, &damaged);
        damaged
    }

    /// Whether the records are as predicted and as said.
    fn holds(&mut self, clean: &Clean, clean_run: &Run, inverted: &[usize]) -> bool {
        let damaged = self.run(clean, inverted, &mut uncut);
        let expected = predicted(clean, inverted, &self.start);
        damaged.records == expected.records
            && as_said(clean, inverted, clean_run, &damaged).is_some()
    }

    /// What else the state has: an ECR that was acted on has cleared the
    /// pointers, and each kind of error has left its warning.
    fn check_rest(&self, clean: &Clean, inverted: &[usize], damaged: &Run) {
        let (start, end) = (&self.start, &self.reader.state);
        let has = |fits: &dyn Fn(&Record) -> bool| damaged.records.iter().any(fits);
        let mut expected = start.clone();
        expected.next_cycle += clean.length as u64;
        if has(&|record| (record.kind, record.flags & 0x01) == (0x12, 0x01)) {
            expected.write_pointers = [0; 16];
            expected.read_pointers = [0; 16];
        }
        expected.warnings.wlv1 |= has(&|record| record.flags & 0x02 != 0);
        expected.warnings.wfst |= has(&|record| record.kind == 0x1F);
        // The counters are compared elsewhere; the window may hold a hit.
        expected.l1id = end.l1id;
        expected.base_cycle = end.base_cycle;
        expected.earlier = end.earlier;
        expected.recogniser = end.recogniser;
        assert_eq!(end, &expected, "{:?}, {inverted:?}", clean.commands);
    }

    /// Nothing has begun a Slow: no store, tray or frame was written.
    fn finish(self) -> (Tally, [[u64; 2]; 7]) {
        assert!(self.reader.store.iter().all(|&word| word == 0));
        assert!(self.reader.tray.iter().all(|&byte| byte == 0));
        assert!(self.reader.frames.is_empty());
        (self.tally, self.choices)
    }
}

/// Every choice of so many places of a stream.
fn every_choice(length: usize, count: usize, mut each: impl FnMut(&[usize])) {
    let mut chosen: Vec<usize> = (0..count).collect();
    loop {
        if chosen.last().is_some_and(|&last| last >= length) {
            return;
        }
        each(&chosen);
        // The last that can move on does, and those after it follow it.
        let at_end = |&n: &usize| chosen[n] == length - (count - n);
        let Some(moved) = (0..count).rev().find(|n| !at_end(n)) else {
            return;
        };
        let next = chosen[moved] + 1;
        for (n, place) in chosen[moved..].iter_mut().enumerate() {
            *place = next + n;
        }
    }
}

/// All streams of one to three commands with few more zeros than asked.
fn short_streams(mut each: impl FnMut(&Clean)) {
    every_series(1, 0..=0, 0..=5, &[0, 1, 2, 5], &mut each);
    every_series(2, 0..=3, 0..=3, &[0, 3], &mut each);
    every_series(3, 0..=2, 0..=1, &[0, 2], &mut each);
}

/// Every choice of two and of three places: both forms of the premise, and
/// the statement where it is met.
#[test]
fn every_choice_of_short_streams() {
    let mut bench = Bench::running();
    short_streams(|clean| {
        let clean_run = bench.clean_run(clean, &mut uncut);
        for count in [2, 3] {
            every_choice(clean.length, count, |inverted| {
                if bench.meets_premise(clean, inverted) {
                    bench.check(clean, &clean_run, inverted, &mut uncut);
                }
            });
        }
    });
    let (tally, choices) = bench.finish();
    assert_eq!(choices[2], [1_581_246, 516_978]);
    assert_eq!(choices[3], [19_239_570, 28_810]);
    assert_eq!(tally.choices, [0, 0, 516_978, 28_810, 0, 0, 0]);
    assert!(tally.harmless > 100_000, "{tally:?}");
    tally.has_at_least(20_000);
}

/// Every choice that meets the premise, item by item.
fn every_spaced_choice(clean: &Clean, mut each: impl FnMut(&[usize])) {
    let ends: Vec<usize> = clean.ends().collect();
    go_on(clean, &ends, 0, &mut Vec::new(), &mut each);

    fn go_on(
        clean: &Clean,
        ends: &[usize],
        item: usize,
        chosen: &mut Vec<usize>,
        each: &mut impl FnMut(&[usize]),
    ) {
        if item >= ends.len() {
            return each(chosen);
        }
        go_on(clean, ends, item + 1, chosen, each);
        let from = if item == 0 { 0 } else { ends[item - 1] };
        for bit in from..ends[item] {
            // The item after an affected command has none.
            let next = item + 1 + usize::from(clean.affected(bit).is_some());
            chosen.push(bit);
            go_on(clean, ends, next, chosen, each);
            chosen.pop();
        }
    }
}

/// Every spaced choice of two and more places, in all streams of four
/// commands with the zeros that are asked.
#[test]
fn every_spaced_choice_of_four_commands() {
    let mut bench = Bench::running();
    every_series(4, 0..=0, 0..=1, &[0, 1], |clean| {
        let clean_run = bench.clean_run(clean, &mut uncut);
        every_spaced_choice(clean, |inverted| {
            if inverted.len() > 1 {
                assert!(bench.meets_premise(clean, inverted));
                bench.check(clean, &clean_run, inverted, &mut uncut);
            }
        });
    });
    let (tally, _) = bench.finish();
    assert_eq!(tally.choices, [0, 0, 621_689, 148_966, 164, 0, 0]);
    tally.has_at_least(50_000);
}

/// Three hits in five commands, of which the second and the fourth are a
/// trigger or a reset; most choices affect the three others.
#[test]
fn three_hits_in_five_commands() {
    let mut bench = Bench::running();
    let between = [Lv1, Bcr, Ecr];
    for series in 0..5_usize.pow(3) * 9 {
        let any = |turn: u32| ALL[series / 9 / 5_usize.pow(turn) % 5];
        let commands = [
            any(0),
            between[series % 3],
            any(1),
            between[series / 3 % 3],
            any(2),
        ];
        let clean = asked_zeros(&commands, |_| 0);
        let clean_run = bench.clean_run(&clean, &mut uncut);
        every_spaced_choice(&clean, |inverted| {
            if inverted.len() == 3 {
                bench.check(&clean, &clean_run, inverted, &mut uncut);
            }
        });
    }
    let (tally, _) = bench.finish();
    assert_eq!(tally.choices, [0, 0, 0, 810_037, 0, 0, 0]);
    tally.has_at_least(40_000);
}

/// Commands with the zeros that are asked between them and so many more, ahead
/// of the first, of each other, and after the last.
fn asked_zeros(commands: &[Command], mut more: impl FnMut(usize) -> usize) -> Clean {
    let mut zeros = vec![more(0)];
    for (n, pair) in (1..).zip(commands.windows(2)) {
        zeros.push(zeros_between(pair[0], pair[1]) + more(n));
    }
    zeros.push(more(commands.len()));
    Clean::new(commands, &zeros)
}

/// From states with an earlier record, which ends so many cycles ahead of the
/// next one, and with each CSR: two hits of three commands.
#[test]
fn from_several_states() {
    let mut tally = Tally::default();
    for kind in [0x00, 0x01, 0x11, 0x12, 0x18, 0x2F] {
        for (back, csr, run_mode) in [
            (1, 0x0000, true),
            (2, 0x0040, true),
            (3, 0xFFFF, true),
            (4, 0xFFBF, true),
            (5, 0x0000, false),
        ] {
            let mut state = Bench::running().start;
            state.earlier = earlier(state.next_cycle - back, kind);
            state.registers[0] = csr;
            state.run_mode = run_mode;
            let mut bench = Bench::new(state);
            every_series(3, 0..=0, 0..=1, &[0], |clean| {
                let clean_run = bench.clean_run(clean, &mut uncut);
                let sent = clean_run
                    .records
                    .iter()
                    .any(|record| record.flags & 0x04 != 0);
                let lv1 = clean.commands.iter().any(|&(command, _)| command == Lv1);
                assert_eq!(sent, lv1 && run_mode && csr & 0x0040 == 0);
                every_spaced_choice(clean, |inverted| {
                    if inverted.len() > 1 {
                        bench.check(clean, &clean_run, inverted, &mut uncut);
                    }
                });
            });
            let (of_state, _) = bench.finish();
            // Where nothing is counted, nothing differs.
            assert_eq!(of_state.seen.other_trigger > 0, run_mode);
            assert_eq!(of_state.seen.other_bunch > 0, run_mode);
            assert_eq!(of_state.seen.other_counters > 0, run_mode);
            tally.add(of_state);
        }
    }
    assert_eq!(tally.choices, [0, 0, 592_800, 0, 0, 0, 0]);
    tally.has_at_least(20_000);
}

/// A sound state that hunts with window 00000, most often in RunMode, from
/// which a stream of this length ends within the clock.
fn any_state(random: &mut Random, length: u64) -> State {
    let last = CLOCK_LIMIT - length;
    let mut state = Reader::with_run_mode(!random.one_in(8)).state;
    state.next_cycle = [0, 1, 5_000, random.below(last), last][random.below(5) as usize];
    let near = state.next_cycle.saturating_sub(random.below(600));
    let base = [0, near, state.next_cycle];
    state.base_cycle = base[random.below(3) as usize];
    state.l1id = [0, 1, 254, 255, random.below(256) as u32][random.below(5) as usize];
    state.registers[0] = random.word() as u16;
    state.write_pointers = std::array::from_fn(|_| random.below(128) as u8);
    state.read_pointers = std::array::from_fn(|_| random.below(128) as u8);
    state.warnings = Warnings {
        wlv1: random.bit(),
        wfst: random.bit(),
        wslw: random.bit(),
    };
    let kinds = [0x00, 0x01, 0x11, 0x12, 0x18, 0x24];
    let kind = kinds[random.below(6) as usize];
    state.earlier = match state.next_cycle {
        0 => Earlier::NONE,
        next => earlier((next - 1).saturating_sub(random.below(6)), kind),
    };
    state
}

/// So many commands with few more zeros than asked, now and then many.
fn any_clean(random: &mut Random, count: usize) -> Clean {
    let commands: Vec<Command> = (0..count).map(|_| ALL[random.below(5) as usize]).collect();
    asked_zeros(&commands, |_| match random.below(8) {
        0..=2 => 0,
        3..=6 => random.below(6) as usize,
        _ => random.below(300) as usize,
    })
}

/// So many different places of a stream, in any order.
fn any_choice(random: &mut Random, clean: &Clean, count: usize) -> Vec<usize> {
    let mut chosen = Vec::new();
    while chosen.len() < count {
        let place = random.below(clean.length as u64) as usize;
        if !chosen.contains(&place) {
            chosen.push(place);
        }
    }
    chosen
}

/// So many places that are spaced. The stream has room for them.
fn any_spaced_choice(random: &mut Random, clean: &Clean, count: usize) -> Vec<usize> {
    let mut chosen: Vec<usize> = Vec::new();
    while chosen.len() < count {
        // A command as often as its bits, or any place.
        let place = if random.bit() {
            let n = random.below(clean.commands.len() as u64) as usize;
            let (command, first) = clean.commands[n];
            first + random.below(command.bits() as u64) as usize
        } else {
            random.below(clean.length as u64) as usize
        };
        chosen.push(place);
        if chosen[..chosen.len() - 1].contains(&place) || !is_spaced(clean, &chosen) {
            chosen.pop();
        }
    }
    chosen
}

/// Moves one place by a few cycles.
fn nudge(random: &mut Random, clean: &Clean, chosen: &mut [usize]) {
    let n = random.below(chosen.len() as u64) as usize;
    let moved = (chosen[n] + random.below(25) as usize).saturating_sub(12);
    if moved < clean.length && !chosen.contains(&moved) {
        chosen[n] = moved;
    }
}

/// Longer streams with two to six hits, from any state, where clean and
/// damaged bits are each cut into calls at random.
#[test]
fn random_choices_of_longer_streams() {
    let mut random = Random::new(130);
    let mut bench = Bench::running();
    for round in 0..25_000 {
        let count = 2 + round % 5;
        let commands = 3 * count + random.below(12) as usize;
        let clean = any_clean(&mut random, commands);
        bench.start = any_state(&mut random, clean.length as u64);
        let clean_run = bench.clean_run(&clean, &mut cut_at_random(&mut random));
        let inverted = any_spaced_choice(&mut random, &clean, count);
        assert!(bench.meets_premise(&clean, &inverted));
        let damaged = bench.check(
            &clean,
            &clean_run,
            &inverted,
            &mut cut_at_random(&mut random),
        );
        for (run, hits) in [(&clean_run, &[][..]), (&damaged, &inverted)] {
            let mut cut = cut_at_random(&mut random);
            assert!(bench.is_same_cut_anywhere(&clean, hits, run, &mut cut));
        }
        bench.check_others(&clean, &clean_run, inverted, &mut random);
    }
    let (tally, choices) = bench.finish();
    for count in 2..=6 {
        let [not_met, met] = choices[count];
        assert!(not_met > 5_000 && met > 15_000, "{choices:?}");
        assert_eq!(met, tally.choices[count]);
    }
    let met = [0, 0, 28_669, 23_610, 20_412, 18_887, 17_954];
    assert_eq!(tally.choices, met);
    assert!(tally.harmless > 20_000, "{tally:?}");
    tally.has_at_least(10_000);
}

impl Bench {
    /// Other choices of as many places, near this one and anywhere.
    fn check_others(
        &mut self,
        clean: &Clean,
        clean_run: &Run,
        mut inverted: Vec<usize>,
        random: &mut Random,
    ) {
        for turn in 0..6 {
            if turn < 3 {
                nudge(random, clean, &mut inverted);
            } else {
                inverted = any_choice(random, clean, inverted.len());
            }
            if self.meets_premise(clean, &inverted) {
                self.check(clean, clean_run, &inverted, &mut uncut);
            }
        }
    }
}

/// The words ask for what they should: of each record, and of the counters at
/// each command's end, they let the trigger number differ, the bunch number,
/// both or neither, and nothing else.
#[test]
fn what_the_words_let_differ() {
    let clean = asked_zeros(&[Lv1, Cal, Lv1, Ecr, Lv1, Bcr, Lv1, Lv1, Lv1], |_| 0);
    let inverted = [1, 7].map(|place| clean.commands[place].1 + 1);
    let mut bench = Bench::running();
    let clean_run = bench.clean_run(&clean, &mut uncut);
    let damaged = bench.check(&clean, &clean_run, &inverted, &mut uncut);
    let trigger = [false, true, true, false, false, false, false, true, true];
    let bunch = [false, true, true, true, true, false, false, true, true];
    let may = |change: &dyn Fn(&mut Run)| {
        let mut other = damaged.clone();
        change(&mut other);
        as_said(&clean, &inverted, &clean_run, &other).is_some()
    };
    for place in 0..clean.commands.len() {
        // An affected record goes by the counters ahead of it.
        let is_numbered = [0, 2, 4, 6, 8].contains(&place);
        let by_value = |bits: u32| may(&|run| run.records[place].value ^= bits);
        assert_eq!(by_value(0x0100), is_numbered && trigger[place], "{place}");
        assert_eq!(by_value(0x0001), is_numbered && bunch[place], "{place}");
        assert!(!by_value(0x0001_0000));
        assert!(!may(&|run| run.records[place].time += 1));
        assert!(!may(&|run| run.records[place].kind ^= 0x02));
        assert!(!may(&|run| run.records[place].flags ^= 0x20));
        assert!(!may(&|run| run.records.truncate(place)));
    }
    assert!(!may(&|run| run.records.push(run.records[0])));
    // At the stream's end as at the last command's.
    for place in 0..=clean.commands.len() {
        let last = place.min(clean.commands.len() - 1);
        let l1id = may(&|run| run.counters[place + 1].l1id ^= 1);
        let base = may(&|run| run.counters[place + 1].base ^= 1);
        assert_eq!((l1id, base), (trigger[last], bunch[last]), "{place}");
    }
}

/// The premise is tight: two hits with no unaffected command between, where
/// each alone is as the table says, and both together are not.
#[test]
fn tight_examples() {
    let lv1 = || Clean::new(&[Lv1], &[0, 9]);
    let mut bench = Bench::running();
    let clean_run = bench.clean_run(&lv1(), &mut uncut);
    // Three zeros in a row make an LV1.
    assert!(!bench.meets_premise(&lv1(), &[6, 7, 8]));
    assert!(!bench.holds(&lv1(), &clean_run, &[6, 7, 8]));
    let bcr_lv1 = |gap| Clean::new(&[Bcr, Lv1], &[0, gap, 9]);
    for (clean, [one, other]) in [
        // Bits 1 and 2 of an LV1.
        (lv1(), [0, 1]),
        // Bit 1 of a BCR with the first of an LV1 next to it.
        (bcr_lv1(0), [0, 9]),
        // Bit 1 of a BCR and the one zero between it and an LV1.
        (bcr_lv1(1), [0, 9]),
    ] {
        let mut bench = Bench::running();
        let clean_run = bench.clean_run(&clean, &mut uncut);
        for alone in [one, other] {
            assert!(bench.meets_premise(&clean, &[alone]));
            bench.check(&clean, &clean_run, &[alone], &mut uncut);
        }
        // Where both affect one command, either may be the one that counts.
        for both in [[one, other], [other, one]] {
            assert!(!bench.meets_premise(&clean, &both));
            assert!(!bench.holds(&clean, &clean_run, &both));
        }
    }
}

/// What an inverted bit of an item is, for the premise.
#[derive(Clone, Copy, Debug, PartialEq, Eq, PartialOrd, Ord)]
enum Part {
    /// A zero that affects nothing.
    Harmless,
    /// A zero one or two cycles ahead of a Fast.
    Ahead,
    Bit,
}

/// The item of a bit, and what the bit is in it.
fn part(clean: &Clean, bit: usize) -> (usize, Part) {
    let mut ends = clean.commands.iter();
    let item = ends.position(|&(command, first)| bit < first + command.bits());
    let item = item.unwrap_or(clean.commands.len());
    let part = match clean.affected(bit) {
        None => Part::Harmless,
        Some(hit) if bit < clean.commands[hit.place].1 => Part::Ahead,
        Some(_) => Part::Bit,
    };
    (item, part)
}

/// No part of the premise can go: whatever two bits of one item are, and two
/// of which the first affects a command and the second lies in the item after
/// it, there are streams in which the two are not as the table says. Two hits
/// of which one lies in the zeros after the last command do no harm; three do
/// (`tight_examples`).
#[test]
fn every_part_of_the_premise_is_needed() {
    let mut bench = Bench::running();
    let mut broken = BTreeSet::new();
    let mut counts = [0; 2];
    every_series(2, 0..=4, 0..=4, &[0, 6], |clean| {
        let clean_run = bench.clean_run(clean, &mut uncut);
        every_choice(clean.length, 2, |inverted| {
            if is_spaced(clean, inverted) {
                return;
            }
            let [one, other] = [inverted[0], inverted[1]];
            // Where both affect one command, either may be the one that counts.
            let holds = bench.holds(clean, &clean_run, &[one, other])
                || bench.holds(clean, &clean_run, &[other, one]);
            counts[usize::from(holds)] += 1;
            let [(item, one), (next, other)] = [one, other].map(|bit| part(clean, bit));
            if !holds {
                assert!(next < clean.commands.len());
                broken.insert((next - item, one, other));
            }
        });
    });
    let [harmless, ahead, bit] = [Part::Harmless, Part::Ahead, Part::Bit];
    let in_one_item = [
        (0, harmless, harmless),
        (0, harmless, ahead),
        (0, harmless, bit),
        (0, ahead, ahead),
        (0, ahead, bit),
        (0, bit, bit),
    ];
    let in_the_next = [ahead, bit].map(|one| [harmless, ahead, bit].map(|other| (1, one, other)));
    assert!(broken
        .into_iter()
        .eq([&in_one_item[..], &in_the_next.concat()].concat()));
    assert_eq!(counts, [58_906, 244_669]);
}

/// The trigger and bunch numbers of the LV1 recorded.
fn numbers(run: &Run) -> Vec<(u32, u32)> {
    let lv1 = run.records.iter().filter(|record| record.kind == 0x01);
    lv1.map(|record| (record.value >> 8 & 0xFF, record.value & 0xFF))
        .collect()
}

/// A state in RunMode at cycle 1,000, with L1ID 10 and base 990.
fn at_1000() -> State {
    let mut state = Reader::running().state;
    state.next_cycle = 1_000;
    state.base_cycle = 990;
    state.l1id = 10;
    state
}

/// An ECR that is hit is no reset: the trigger numbers differ on, up to one
/// that is not hit. It has the bunch numbers of both runs agree.
#[test]
fn an_affected_ecr_is_no_reset() {
    let clean = asked_zeros(&[Cal, Lv1, Ecr, Lv1, Ecr, Lv1], |_| 0);
    let [cal, ecr] = [0, 2].map(|place| clean.commands[place].1);
    for (bit, left_out) in [(1, true), (2, false), (3, true), (5, false), (7, false)] {
        let mut bench = Bench::new(at_1000());
        let clean_run = bench.clean_run(&clean, &mut uncut);
        // Bit 2 of the CAL makes an LV1 of it.
        let inverted = [cal + 1, ecr + bit - 1];
        assert!(bench.meets_premise(&clean, &inverted));
        let damaged = bench.check(&clean, &clean_run, &inverted, &mut uncut);
        assert_eq!(numbers(&clean_run), [(10, 23), (0, 37), (0, 51)]);
        let triggers: Vec<u32> = numbers(&damaged).iter().map(|numbers| numbers.0).collect();
        // Bits 2 and 5 make an LV1 of the ECR too.
        let expected = match bit {
            2 | 5 => vec![10, 11, 12, 13, 0],
            _ => vec![10, 11, 12, 0],
        };
        assert_eq!(triggers, expected, "bit {bit}");
        let bunches = numbers(&damaged);
        let unaffected = [1, bunches.len() - 2, bunches.len() - 1];
        assert_eq!(unaffected.map(|n| bunches[n].1), [23, 37, 51]);
        assert_eq!(bench.tally.seen.left_out > 0, left_out);
        assert_eq!(bench.tally.seen.other_trigger, 2);
        assert_eq!(bench.tally.seen.ended, 1);
    }
}

/// Nor is a BCR that is hit: the base stays where it was.
#[test]
fn an_affected_bcr_is_no_reset() {
    let clean = asked_zeros(&[Bcr, Lv1, Bcr, Lv1, Bcr, Lv1], |_| 0);
    let [one, other] = [0, 2].map(|place| clean.commands[place].1);
    let mut bench = Bench::new(at_1000());
    let clean_run = bench.clean_run(&clean, &mut uncut);
    let inverted = [one, other + 2];
    assert!(bench.meets_premise(&clean, &inverted));
    let damaged = bench.check(&clean, &clean_run, &inverted, &mut uncut);
    assert_eq!(numbers(&clean_run), [(10, 5), (11, 5), (12, 5)]);
    // From base 990 up to the third, which is not hit.
    assert_eq!(numbers(&damaged), [(10, 23), (11, 37), (12, 5)]);
    let bases = |run: &Run| -> Vec<u64> { run.counters.iter().map(|now| now.base).collect() };
    let moved = [990, 1_008, 1_008, 1_022, 1_022, 1_036, 1_036, 1_036];
    assert_eq!(bases(&clean_run), moved);
    let kept = [990, 990, 990, 990, 990, 1_036, 1_036, 1_036];
    assert_eq!(bases(&damaged), kept);
}

/// The record of an affected LV1 shows the damaged run's counters ahead of
/// it, which are not the clean ones; with these it would not be as said.
#[test]
fn an_affected_lv1_has_the_damaged_runs_numbers() {
    let clean = asked_zeros(&[Cal, Ecr, Lv1, Bcr, Lv1, Lv1], |_| 0);
    let first = |place: usize| clean.commands[place].1;
    let mut bench = Bench::new(at_1000());
    let clean_run = bench.clean_run(&clean, &mut uncut);
    assert_eq!(numbers(&clean_run), [(0, 32), (1, 5), (2, 10)]);
    let inverted = [first(0), first(3), first(5) + 2];
    assert!(bench.meets_premise(&clean, &inverted));
    let damaged = bench.check(&clean, &clean_run, &inverted, &mut uncut);
    let expected = [
        // The CAL with bit 1 hit.
        rec(1_006, 0x01, 0x07, 0x0003_0A10),
        rec(1_017, 0x12, 0x01, 0),
        rec(1_022, 0x01, 0x05, 0x0000_0020),
        // No BCR, and so bunches by base 990.
        rec(1_036, 0x01, 0x05, 0x0000_012E),
        rec(1_041, 0x01, 0x07, 0x0003_0233),
    ];
    assert_eq!(damaged.records, expected);
    let by_clean = rec(1_041, 0x01, 0x07, 0x0003_020A);
    let mut other = damaged.clone();
    other.records[4] = by_clean;
    assert!(as_said(&clean, &inverted, &clean_run, &other).is_none());
}

/// Inverted zeros that affect nothing count as inverted bits, and a command
/// beside them as unaffected.
#[test]
fn harmless_zeros() {
    // Zeros at 0 and 1, 7 to 9, 15 to 19 and 29 to 31.
    let clean = Clean::new(&[Lv1, Lv1, Cal], &[2, 3, 5, 3]);
    let mut bench = Bench::new(at_1000());
    let clean_run = bench.clean_run(&clean, &mut uncut);
    for inverted in [
        // A whole command between any two.
        &[0, 8][..],
        &[1, 7, 17],
        &[0, 9, 15, 29],
        &[1, 31],
        // Ahead of an affected command's item.
        &[0, 12],
        &[9, 22],
        &[1, 9, 19],
        // And behind it, with a command between.
        &[3, 17],
        &[6, 16, 31],
    ] {
        assert!(bench.meets_premise(&clean, inverted), "{inverted:?}");
        let damaged = bench.check(&clean, &clean_run, inverted, &mut uncut);
        let harmless = inverted.iter().all(|&bit| clean.affected(bit).is_none());
        assert_eq!(damaged.records == clean_run.records, harmless);
    }
    for inverted in [
        // In one item.
        [0, 1],
        [1, 4],
        [15, 18],
        [29, 30],
        // In the item next to an affected command's.
        [2, 7],
        [10, 15],
        [18, 29],
        [28, 31],
    ] {
        assert!(!bench.meets_premise(&clean, &inverted), "{inverted:?}");
    }
}

/// The clean stream of these bits, which hold nothing else.
fn clean_of(stream: &Stream) -> Clean {
    let records = Reader::running().read(stream);
    let mut commands = Vec::new();
    let mut zeros = Vec::new();
    let mut end = 0;
    for record in records {
        let command = Command::of_kind(record.kind).expect("a clean stream's command");
        let first = record.time as usize + 1 - command.bits();
        commands.push(command);
        zeros.push(first - end);
        end = first + command.bits();
    }
    zeros.push(stream.bits.len() - end);
    let clean = Clean::new(&commands, &zeros);
    assert_eq!(clean.bytes, stream.bytes());
    clean
}

/// A row of the damage table: a command, and the bit of it that is hit or, as
/// a number below 1, the zero ahead.
type Row = (u8, i64);

/// The rows that these bits hit.
fn rows(clean: &Clean, inverted: &[usize]) -> Vec<Row> {
    let hits = inverted.iter().filter_map(|&bit| clean.affected(bit));
    hits.map(|hit| {
        let (command, first) = clean.commands[hit.place];
        (command.kind(), hit.inverted as i64 - first as i64 + 1)
    })
    .collect()
}

/// Each bit of each command, and the two zeros ahead of each Fast.
fn all_rows() -> BTreeSet<Row> {
    let rows = ALL.into_iter().flat_map(|command| {
        let from = if command == Lv1 { 1 } else { -1 };
        (from..=command.bits() as i64).map(move |bit| (command.kind(), bit))
    });
    rows.collect()
}

/// The streams for comparison are spaced, as they say, and have every row of
/// the damage table many times.
#[test]
fn the_generated_cases_are_spaced() {
    let mut random = Random::new(131);
    let mut seen: Vec<Row> = Vec::new();
    let mut bench = Bench::new(at_1000());
    let mut harmless = 0;
    for round in 0..300 {
        let spaced = spaced_hits(&mut random, 60, 1 + round % 4);
        let clean = clean_of(&spaced.clean);
        assert!(bench.meets_premise(&clean, &spaced.inverted));
        let clean_run = bench.clean_run(&clean, &mut uncut);
        bench.check(&clean, &clean_run, &spaced.inverted, &mut uncut);
        let affected = rows(&clean, &spaced.inverted);
        harmless += spaced.inverted.len() - affected.len();
        seen.extend(affected);
        check_spaced(&clean, &spaced);
    }
    for row in all_rows() {
        let count = seen.iter().filter(|&&other| other == row).count();
        assert!(count > 10, "{row:?}");
    }
    assert!(harmless > 100, "{harmless}");
    let (tally, _) = bench.finish();
    assert!(tally.again > 200, "{tally:?}");
}

/// What a stream says of itself.
fn check_spaced(clean: &Clean, spaced: &Spaced) {
    let mut bytes = clean.bytes.clone();
    for &bit in &spaced.inverted {
        invert(&mut bytes, bit);
    }
    assert_eq!(spaced.damaged().bytes(), bytes);
    let hits = spaced
        .inverted
        .iter()
        .filter_map(|&bit| clean.affected(bit));
    let affected: Vec<usize> = hits.map(|hit| hit.place).collect();
    let places = (0..clean.commands.len()).filter(|place| !affected.contains(place));
    let last = places.map(|place| clean.last_cycle(place, 0) as usize);
    assert!(last.eq(spaced.unaffected.iter().copied()));
}

/// The bits of a case's lines.
fn case_bits(cases: &[Case], name: &str) -> Vec<bool> {
    let case = cases.iter().find(|case| case.name == name);
    let input = &case.expect("a case's name").input;
    let lines = input.split(|&byte| byte == b'\n');
    let bytes = lines.flat_map(|line| hex_line(line).expect("a line"));
    let bits = bytes.flat_map(|byte| (0..8).rev().map(move |place| byte >> place & 1 == 1));
    bits.collect()
}

/// The clean stream of a fixed case, after an EnDataTake if there is one, and
/// the bits that are inverted in the other.
fn fixed_case(cases: &[Case], clean: &str, hit: &str) -> (Clean, Vec<usize>) {
    let (clean, hit) = (case_bits(cases, clean), case_bits(cases, hit));
    assert_eq!(clean.len(), hit.len());
    let en_data_take = Stream::new().en_data_take().bits;
    let from = match clean.starts_with(&en_data_take) {
        true => en_data_take.len(),
        false => 0,
    };
    let differ = (from..clean.len()).filter(|&place| clean[place] != hit[place]);
    let inverted = differ.map(|place| place - from).collect();
    (clean_of(&Stream::new().raw(&clean[from..])), inverted)
}

/// The day's run has every row of the table, and resets between; the others
/// have every bit.
#[test]
fn the_fixed_cases_are_spaced() {
    let mut cases = fixed();
    cases.retain(|case| case.name.starts_with("hits/"));
    let every_bit = |mode| {
        let name = |what| format!("hits/every-bit-{what}-{mode}");
        (name("clean"), name("hit"))
    };
    let day = ("hits/day-clean".to_string(), "hits/day-hit".to_string());
    for (clean, hit) in [day, every_bit("run"), every_bit("idle")] {
        let (stream, inverted) = fixed_case(&cases, &clean, &hit);
        let mut bench = Bench::new(at_1000());
        assert!(bench.meets_premise(&stream, &inverted));
        let clean_run = bench.clean_run(&stream, &mut uncut);
        bench.check(&stream, &clean_run, &inverted, &mut uncut);
        let seen: BTreeSet<Row> = rows(&stream, &inverted).into_iter().collect();
        if clean == "hits/day-clean" {
            assert!(has_every_entry(&seen));
        } else {
            assert_eq!(seen, all_rows());
        }
        let of_case = &bench.tally.seen;
        assert!(of_case.affected < inverted.len() as u64, "{clean}");
        assert!(of_case.ended > 5 && of_case.again > 5, "{of_case:?}");
        assert!(
            of_case.other_trigger > 5 && of_case.other_bunch > 5,
            "{of_case:?}"
        );
        assert!(
            of_case.other_counters > 5 && of_case.left_out > 5,
            "{of_case:?}"
        );
    }
}

/// Whether these rows are of every entry of the damage table.
fn has_every_entry(seen: &BTreeSet<Row>) -> bool {
    let of_bits = DAMAGE.iter().all(|(commands, bits, _)| {
        let mut rows = commands.iter().flat_map(|command| {
            let bits = bits.clone();
            bits.map(|bit| (command.kind(), bit as i64))
        });
        rows.any(|row| seen.contains(&row))
    });
    let of_zeros = ZEROS_AHEAD.iter().all(|(cycles, _)| {
        let ahead = 1 - *cycles as i64;
        seen.iter().any(|&(_, bit)| bit == ahead)
    });
    of_bits && of_zeros
}
