//! The damage statement for any number of inverted bits (document 02, F-13):
//! its premise in two forms, the run that it leads to, and its words over two
//! runs.
//!
//! An item is a command with the zeros ahead of it; the zeros after the last
//! command are an item too. What an inverted bit affects lies in its own item.

use super::damage::{agree, Clean, Command, Counters, Hit};
use reader::{Record, State};

/// The premise in document 02's words: "between any two of them lies a whole
/// command that no inverted bit affects".
pub fn is_spaced(clean: &Clean, inverted: &[usize]) -> bool {
    let hits = inverted.iter().filter_map(|&bit| clean.affected(bit));
    let affected: Vec<usize> = hits.map(|hit| hit.place).collect();
    let is_parted = |one: usize, other: usize| {
        let mut commands = clean.commands.iter().enumerate();
        commands.any(|(place, &(command, first))| {
            let lies_between = one.min(other) < first && first + command.bits() <= one.max(other);
            lies_between && !affected.contains(&place)
        })
    };
    let mut ones = inverted.iter().enumerate();
    ones.all(|(n, &one)| {
        let mut others = inverted[n + 1..].iter();
        others.all(|&other| is_parted(one, other))
    })
}

/// The same item by item: each holds at most one inverted bit, and none where
/// the item before has an affected command.
pub fn is_spaced_by_items(clean: &Clean, inverted: &[usize]) -> bool {
    let mut from = 0;
    let mut most = 1;
    for &(command, first) in &clean.commands {
        let end = first + command.bits();
        let mut held = inverted.iter().filter(|bit| (from..end).contains(bit));
        if held.clone().count() > most {
            return false;
        }
        // A Fast is affected from two cycles ahead of it on.
        let ahead = if command == Command::Lv1 { 0 } else { 2 };
        most = usize::from(!held.any(|bit| bit + ahead >= first));
        from = end;
    }
    inverted.iter().filter(|&&bit| bit >= from).count() <= most
}

/// A run from a first cycle: its records, and the counters at its start, at
/// each command's end and at the stream's.
#[derive(Clone, Debug, PartialEq)]
pub struct Run {
    pub start: u64,
    pub records: Vec<Record>,
    pub counters: Vec<Counters>,
}

/// The inverted bit that affects a command, if one does.
fn hit_at(clean: &Clean, inverted: &[usize], place: usize) -> Option<Hit> {
    let mut hits = inverted.iter().filter_map(|&bit| clean.affected(bit));
    hits.find(|hit| hit.place == place)
}

/// The run that the statement leads to, item by item: each affected command
/// by the damage table, each other as it is, and all by the run's own
/// counters and earlier record.
pub fn predicted(clean: &Clean, inverted: &[usize], start: &State) -> Run {
    let mut now = Counters::of(start);
    let mut run = Run {
        start: start.next_cycle,
        records: Vec::with_capacity(clean.commands.len()),
        counters: vec![now],
    };
    for (place, &(command, _)) in clean.commands.iter().enumerate() {
        let record = match hit_at(clean, inverted, place) {
            Some(hit) => clean.instead(&hit, run.start, &now),
            None => Some(now.record(command, clean.last_cycle(place, run.start))),
        };
        if let Some(record) = record {
            now.count(&record);
            run.records.push(record);
        }
        run.counters.push(now);
    }
    run.counters.push(now);
    run
}

/// Which numbers may differ: neither at first, both from an affected command
/// on, and each up to the next reset that is not affected.
#[derive(Default)]
struct MayDiffer {
    trigger: bool,
    bunch: bool,
}

/// What a comparison came across.
#[derive(Clone, Copy, Debug, Default, PartialEq, Eq)]
pub struct Seen {
    pub affected: u64,
    /// Affected commands with nothing recorded instead.
    pub left_out: u64,
    /// Numbers that stopped differing at a reset.
    pub ended: u64,
    /// Affected commands after which they may differ anew.
    pub again: u64,
    /// Unaffected LV1 whose trigger number differs, and whose bunch number.
    pub other_trigger: u64,
    pub other_bunch: u64,
    /// Records of affected commands whose value the clean counters would not
    /// give.
    pub other_counters: u64,
    /// Affected records with flag 20.
    pub too_close: u64,
}

impl Seen {
    pub fn add(&mut self, other: Seen) {
        self.affected += other.affected;
        self.left_out += other.left_out;
        self.ended += other.ended;
        self.again += other.again;
        self.other_trigger += other.other_trigger;
        self.other_bunch += other.other_bunch;
        self.other_counters += other.other_counters;
        self.too_close += other.too_close;
    }
}

/// Two runs, compared command by command.
struct Comparison<'a> {
    clean: &'a Clean,
    clean_run: &'a Run,
    damaged: &'a Run,
    /// The damaged records that are still to be compared.
    records: std::slice::Iter<'a, Record>,
    may_differ: MayDiffer,
    seen: Seen,
}

/// Document 02's words over the records of both runs and the counters that
/// their states had; `None` if they do not hold. Nothing here is reckoned on
/// from the start, as in [`predicted`].
pub fn as_said(clean: &Clean, inverted: &[usize], clean_run: &Run, damaged: &Run) -> Option<Seen> {
    let mut comparison = Comparison {
        clean,
        clean_run,
        damaged,
        records: damaged.records.iter(),
        may_differ: MayDiffer::default(),
        seen: Seen::default(),
    };
    for place in 0..clean.commands.len() {
        match hit_at(clean, inverted, place) {
            Some(hit) => comparison.affected(&hit)?,
            None => comparison.unaffected(place)?,
        }
        comparison.counters(place + 1)?;
    }
    comparison.counters(clean.commands.len() + 1)?;
    comparison
        .records
        .next()
        .is_none()
        .then_some(comparison.seen)
}

impl Comparison<'_> {
    /// By the damage table, with the damaged run's counters ahead of it.
    fn affected(&mut self, hit: &Hit) -> Option<()> {
        self.seen.affected += 1;
        self.seen.again += u64::from(self.seen.ended > 0);
        self.may_differ = MayDiffer {
            trigger: true,
            bunch: true,
        };
        let by = |run: &Run| self.clean.instead(hit, run.start, &run.counters[hit.place]);
        let Some(instead) = by(self.damaged) else {
            self.seen.left_out += 1;
            return Some(());
        };
        let by_clean = by(self.clean_run)?;
        self.seen.other_counters += u64::from(by_clean.value != instead.value);
        self.seen.too_close += u64::from(instead.flags & 0x20 != 0);
        (self.records.next()? == &instead).then_some(())
    }

    /// As in the clean run, but for the numbers that may differ.
    fn unaffected(&mut self, place: usize) -> Option<()> {
        let may_differ = &mut self.may_differ;
        let ends = match self.clean.commands[place].0 {
            Command::Ecr => std::mem::take(&mut may_differ.trigger),
            Command::Bcr => std::mem::take(&mut may_differ.bunch),
            _ => false,
        };
        self.seen.ended += u64::from(ends);
        let (record, clean) = (self.records.next()?, &self.clean_run.records[place]);
        let other = record.value ^ clean.value;
        self.seen.other_trigger += u64::from(other & 0xFF00 != 0);
        self.seen.other_bunch += u64::from(other & 0x00FF != 0);
        agree(record, clean, may_differ.trigger, may_differ.bunch).then_some(())
    }

    /// The states' counters agree where they may not differ.
    fn counters(&self, at: usize) -> Option<()> {
        let (damaged, clean) = (&self.damaged.counters[at], &self.clean_run.counters[at]);
        let trigger = self.may_differ.trigger || damaged.l1id == clean.l1id;
        let bunch = self.may_differ.bunch || damaged.base == clean.base;
        (trigger && bunch).then_some(())
    }
}
