//! The vote among the eight cycles of a front-end bit (document 02, F-4):
//! groups of every count of ones and either first cycle, in calls that part
//! their cycles at every place and in one-bit calls; every group in one-bit
//! calls; and frames ahead of which an image holds what no phase there uses.

use super::call::Take;
use super::checker::Checker;
use super::image::{image, uses, Image};
use super::layout::{at, DONE, OK, RESULT_WORDS};
use super::prefilled;
use cases::{Random, Stream};
use reader::limits::RECORD_WORDS;
use reader::record::{flag, kind};
use reader::{slow, Plan, Record, State};
use std::io;

/// Field 3 of the commands with groups.
const COMMANDS: [u8; 2] = [slow::WR_FRONT_END, slow::RD_FRONT_END];

/// The first cycle of each stream.
const CYCLE: u64 = 1_000;

pub fn check(checker: &mut Checker) -> io::Result<()> {
    let mut random = Random::new(0xF4);
    for command in COMMANDS {
        for group in some_groups() {
            let frame = Frame::new(command, &[0xFF, group, 0x00]);
            for cut in 0..=frame.stream.bits.len() {
                frame.in_two(checker, cut, &mut random)?;
            }
            frame.in_one_bit_calls(checker, &mut random)?;
        }
        let all: Vec<u8> = (0..=255).collect();
        Frame::new(command, &all).in_one_bit_calls(checker, &mut random)?;
        stale(checker, command, &mut random)?;
    }
    Ok(())
}

/// Of each count of ones and each first cycle the groups whose other ones
/// come last and first, and one between.
pub fn some_groups() -> Vec<u8> {
    let mut some = Vec::new();
    for ones in 0..=8 {
        for first in [0, 1] {
            let fits = |group: &u8| group.count_ones() == ones && group >> 7 == first;
            let groups: Vec<u8> = (0..=255).filter(fits).collect();
            some.extend(groups.first());
            if groups.len() > 2 {
                some.push(groups[groups.len() / 2]);
            }
            some.extend(groups.last());
        }
    }
    some.dedup();
    some
}

/// The bit of a group as the paper says it.
fn voted(group: u8) -> bool {
    let ones = (0..8).filter(|place| group >> place & 1 == 1).count();
    let first = group >= 128;
    ones >= 5 || (ones == 4 && first)
}

/// A stream with a front-end frame, and what comes of it.
struct Frame {
    name: String,
    stream: Stream,
    /// All records. Their times count from the stream's first bit.
    records: Vec<Record>,
    /// The frame's bytes.
    bytes: Vec<u8>,
    state: State,
}

impl Frame {
    /// The command alone, by a CNT that says as many data bits.
    fn new(command: u8, groups: &[u8]) -> Frame {
        let mut state = State::start(Plan::DEFAULT, CYCLE);
        state.registers[usize::from(state.plan.cnt)] = (groups.len() << 3) as u16;
        let stream = Stream::new().groups(command, groups);
        let steady = groups.iter().all(|&group| [0x00, 0xFF].contains(&group));
        let unsteady = if steady { 0 } else { flag::UNSTEADY };
        let record = Record {
            time: stream.bits.len() as u64 - 1,
            kind: kind::SLOW + command,
            flags: flag::ACTED_ON | unsteady,
            value: groups.len() as u32,
        };
        let bits: Vec<bool> = groups.iter().map(|&group| voted(group)).collect();
        let few: Vec<_> = groups.iter().take(4).map(|g| format!("{g:08b}")).collect();
        Frame {
            name: format!("vote, command {command}, {}", few.join(" ")),
            stream,
            records: vec![record],
            bytes: Stream::new().raw(&bits).bytes(),
            state,
        }
    }

    fn in_two(&self, checker: &mut Checker, cut: usize, random: &mut Random) -> io::Result<()> {
        let mut run = Run::new(
            checker,
            format!("{}, cut at {cut}", self.name),
            self,
            random,
        );
        run.piece(cut)?;
        run.piece(self.stream.bits.len() - cut)?;
        run.end(self)
    }

    fn in_one_bit_calls(&self, checker: &mut Checker, random: &mut Random) -> io::Result<()> {
        let name = format!("{}, in one-bit calls", self.name);
        let mut run = Run::new(checker, name, self, random);
        for _ in 0..self.stream.bits.len() {
            run.piece(1)?;
        }
        run.end(self)
    }
}

/// A stream under way, with what goes from each call to the next.
struct Run<'a> {
    checker: &'a mut Checker,
    name: String,
    take: Take,
    records: Vec<Record>,
}

impl Run<'_> {
    fn new<'a>(
        checker: &'a mut Checker,
        name: String,
        frame: &Frame,
        random: &mut Random,
    ) -> Run<'a> {
        let free = 3;
        let take = Take {
            image: image(&frame.state).to_vec(),
            input: frame.stream.bytes(),
            first: 0,
            count: 0,
            store: prefilled::store(random),
            tray: prefilled::tray(random),
            list: prefilled::words(random, free + 2 * RECORD_WORDS),
            free: free as u64,
            result: prefilled::words(random, RESULT_WORDS),
        };
        Run {
            checker,
            name,
            take,
            records: Vec::new(),
        }
    }

    /// Takes the next bits, going on after 'frame' and 'list full'.
    fn piece(&mut self, count: usize) -> io::Result<()> {
        self.take.count = count as u64;
        loop {
            let name = format!("{}, from {}", self.name, self.take.first);
            let (answer, after) = self.checker.take(name, self.take.clone())?;
            if answer != OK {
                let fault = format!("the separate reader rejects it with {answer}");
                return self.checker.report(self.name.clone(), Some(fault));
            }
            let [taken, written, ending] = after.result[..] else {
                unreachable!("a result has three words");
            };
            let words = &after.list[after.free as usize..];
            let written = words.chunks_exact(RECORD_WORDS).take(written as usize);
            let records = written.map(|words| Record::from_words([words[0], words[1]]));
            self.records.extend(records);
            self.take = after;
            self.take.first += taken;
            self.take.count -= taken;
            if ending == DONE || self.take.count == 0 {
                return Ok(());
            }
        }
    }

    /// Words that the phase does not use, at values of their width.
    fn fill_unused(&mut self, group: u8) {
        let words: &mut Image = (&mut self.take.image[..]).try_into().expect("an image");
        for (place, word) in [(at::GROUP, group.into()), (at::UNSTEADY, 1)] {
            if !uses(words, place) {
                words[place] = word;
            }
        }
    }

    /// That the separate reader has the records and the frame that the case
    /// says is a check of its own.
    fn end(self, frame: &Frame) -> io::Result<()> {
        let mut records = self.records;
        for record in &mut records {
            record.time -= CYCLE;
        }
        let bytes = &self.take.tray[..frame.bytes.len()];
        let fault = if records != frame.records {
            Some(format!("the separate reader has {records:X?}"))
        } else if bytes != frame.bytes {
            Some(format!("the separate reader's frame is {bytes:X?}"))
        } else {
            None
        };
        self.checker
            .report(format!("{}, its frame", self.name), fault)
    }
}

/// A frame of every phase ahead of it, and within other commands, with words
/// in the image that mean nothing there: none of them goes into the vote.
fn stale(checker: &mut Checker, command: u8, random: &mut Random) -> io::Result<()> {
    let frame = after_others(command);
    let ahead = frame.stream.bits.len() - 8 * 3;
    for cut in 0..ahead {
        for group in [0x01, 0x55, 0xFF] {
            let name = format!("{}, word {group} left at {cut}", frame.name);
            let mut run = Run::new(checker, name, &frame, random);
            run.piece(cut)?;
            run.fill_unused(group);
            run.piece(frame.stream.bits.len() - cut)?;
            run.end(&frame)?;
        }
    }
    Ok(())
}

/// A WrReceiver, a CNT for three data bits, and a frame of them that is
/// steady, each ahead of the next.
fn after_others(command: u8) -> Frame {
    let cnt = Plan::DEFAULT.cnt;
    let receiver = Stream::new().pattern("10110001").bits;
    let ahead = Stream::new().wr_register(cnt, 1).wr_receiver(&receiver);
    let ahead = ahead.wr_register(cnt, 3 << 3);
    let groups = [0x00, 0xFF, 0x00];
    let mut frame = Frame::new(command, &groups);
    let record = |time, field3, value| Record {
        time,
        kind: kind::SLOW + field3,
        flags: flag::ACTED_ON,
        value,
    };
    let at_cnt = u32::from(cnt) << 16;
    let last = frame.records[0];
    frame.records = vec![
        record(32, slow::WR_REGISTER, at_cnt | 1),
        record(32 + 25, slow::WR_RECEIVER, 8),
        record(32 + 25 + 33, slow::WR_REGISTER, at_cnt | 3 << 3),
        Record {
            time: ahead.bits.len() as u64 + last.time,
            ..last
        },
    ];
    frame.name = format!("vote, command {command} after others");
    frame.stream = ahead.raw(&frame.stream.bits);
    frame.state = State::start(Plan::DEFAULT, CYCLE);
    frame
}
