//! Large captures (document 02, F-6): a mebibyte lent in one call, and the
//! same bits cut into calls of document 01's longest input and at odd places.

use super::call::Take;
use super::checker::Checker;
use super::cut::{Carried, Outcome};
use super::image::image;
use super::layout::{DONE, INPUT_BYTES, OK, RESULT_WORDS};
use super::prefilled;
use cases::generate::{bits, without_frames};
use cases::{Random, Stream};
use reader::limits::{CLOCK_LIMIT, RECORD_WORDS};
use reader::{slow, Plan, State};
use std::io;
use std::ops::Range;

/// The bits of a capture.
pub const BITS: usize = 8 * INPUT_BYTES;

/// Document 01's longest input, in bytes.
const OLD_INPUT_BYTES: usize = 65_536;

pub fn check(checker: &mut Checker) -> io::Result<()> {
    let mut random = Random::new(0xF6);
    let name = "large capture";
    let capture = commands(&mut random).bytes();
    let calls = check_capture(checker, name, &capture, 0, &mut random)?;
    let fault = (calls != 1).then(|| format!("lent whole, it takes {calls} calls"));
    checker.report(format!("{name}, in one call"), fault)?;

    let name = "large capture with frames";
    let capture = with_frames(&mut random).bytes();
    // Its last bit has the last cycle.
    let cycle = CLOCK_LIMIT - BITS as u64;
    check_capture(checker, name, &capture, cycle, &mut random)?;
    Ok(())
}

/// Commands at none of which a call stops, with an LV1 at the very end.
pub fn commands(random: &mut Random) -> Stream {
    without_frames(random, BITS - 5).lv1()
}

/// Commands with the longest frame of each kind. The first lies across the
/// end of document 01's longest input, the last one ends with the capture.
pub fn with_frames(random: &mut Random) -> Stream {
    const CNT: u16 = 0xFFFF;
    let mut stream = Stream::new();
    for (end, field3) in [
        (8 * OLD_INPUT_BYTES + 999, slow::WR_FRONT_END),
        (BITS / 2 + 4_321, slow::RD_FRONT_END),
        (BITS, slow::WR_RECEIVER),
    ] {
        let frame = Stream::new().wr_register(Plan::DEFAULT.cnt, CNT);
        let frame = if field3 == slow::WR_RECEIVER {
            frame.wr_receiver(&bits(random, slow::receiver_bits(CNT)))
        } else {
            let count = slow::data_bits(CNT) + slow::control_bits(CNT);
            frame.front_end(field3, &bits(random, count))
        };
        let ahead = end - frame.bits.len() - stream.bits.len();
        let ahead = without_frames(random, ahead);
        stream = stream.raw(&ahead.bits).raw(&frame.bits);
    }
    stream
}

/// A way to take a capture.
struct Cut {
    name: &'static str,
    parts: Vec<Part>,
    /// Records that a call's list has room for.
    room: usize,
}

/// Some of a capture's bytes, which are lent, and a range of their bits.
struct Part {
    bytes: Range<usize>,
    first: usize,
    count: usize,
}

/// Lent whole, with room for all its records.
fn whole() -> Cut {
    let part = Part {
        bytes: 0..INPUT_BYTES,
        first: 0,
        count: BITS,
    };
    Cut {
        name: "whole",
        parts: vec![part],
        room: BITS / 12,
    }
}

fn in_short_inputs() -> Cut {
    let part = |at| Part {
        bytes: at..at + OLD_INPUT_BYTES,
        first: 0,
        count: 8 * OLD_INPUT_BYTES,
    };
    let places = (0..INPUT_BYTES).step_by(OLD_INPUT_BYTES);
    Cut {
        name: "in short inputs",
        parts: places.map(part).collect(),
        room: 8 * OLD_INPUT_BYTES / 12,
    }
}

/// Lent whole or just the bytes of the part, with lists that become full.
fn at_odd_places(random: &mut Random) -> Cut {
    let mut parts = Vec::new();
    let mut place = 0;
    while place < BITS {
        let end = (place + random.below(1_000_000) as usize).min(BITS);
        let bytes = match random.bit() {
            true => 0..INPUT_BYTES,
            false => place / 8..end.div_ceil(8),
        };
        parts.push(Part {
            first: place - 8 * bytes.start,
            count: end - place,
            bytes,
        });
        place = end;
    }
    Cut {
        name: "at odd places",
        parts,
        room: 20_000,
    }
}

/// Takes a capture in each way, from an opening at a cycle. Answers the calls
/// that it took where it was lent whole.
fn check_capture(
    checker: &mut Checker,
    name: &str,
    capture: &[u8],
    cycle: u64,
    random: &mut Random,
) -> io::Result<usize> {
    let start = Carried {
        image: image(&State::start(Plan::DEFAULT, cycle)).to_vec(),
        store: prefilled::store(random),
        tray: prefilled::tray(random),
    };
    let (calls, outcome) = run(checker, name, capture, &whole(), &start, random)?;
    for cut in [in_short_inputs(), at_odd_places(random)] {
        let (_, other) = run(checker, name, capture, &cut, &start, random)?;
        let fault = (other != outcome).then_some("records or state are not those of the whole");
        let name = format!("{name}, {}", cut.name);
        checker.report(name, fault.map(str::to_string))?;
    }
    Ok(calls)
}

/// The calls that it took, and what came of them.
fn run(
    checker: &mut Checker,
    name: &str,
    capture: &[u8],
    cut: &Cut,
    start: &Carried,
    random: &mut Random,
) -> io::Result<(usize, Outcome)> {
    let mut run = Run {
        checker,
        name: format!("{name}, {}", cut.name),
        calls: 0,
        carried: start.clone(),
        records: Vec::new(),
    };
    for part in &cut.parts {
        let input = &capture[part.bytes.clone()];
        run.part(input, part, cut.room, random)?;
    }
    Ok((run.calls, Outcome::of(run.records, run.carried)))
}

struct Run<'a> {
    checker: &'a mut Checker,
    name: String,
    calls: usize,
    carried: Carried,
    records: Vec<[u64; RECORD_WORDS]>,
}

impl Run<'_> {
    /// Takes a part, going on after 'frame' and 'list full' with the rest.
    fn part(
        &mut self,
        input: &[u8],
        part: &Part,
        room: usize,
        random: &mut Random,
    ) -> io::Result<()> {
        let (mut first, mut left) = (part.first as u64, part.count as u64);
        loop {
            let list = prefilled::words(random, RECORD_WORDS * room);
            let (answer, after) = self.take(input, first, left, list, random)?;
            if answer != OK {
                let fault = format!("the separate reader rejects it with {answer}");
                return self.checker.report(self.name.clone(), Some(fault));
            }
            let [taken, written, ending] = after.result[..] else {
                unreachable!("a result has three words");
            };
            let records = after.list.chunks_exact(RECORD_WORDS);
            let records = records.map(|record| [record[0], record[1]]);
            self.records.extend(records.take(written as usize));
            self.carried = Carried {
                image: after.image,
                store: after.store,
                tray: after.tray,
            };
            if ending == DONE {
                return Ok(());
            }
            first += taken;
            left -= taken;
        }
    }

    fn take(
        &mut self,
        input: &[u8],
        first: u64,
        count: u64,
        list: Vec<u64>,
        random: &mut Random,
    ) -> io::Result<(u64, Take)> {
        self.calls += 1;
        let take = Take {
            image: self.carried.image.clone(),
            input: input.to_vec(),
            first,
            count,
            store: self.carried.store.clone(),
            tray: self.carried.tray.clone(),
            list,
            free: 0,
            result: prefilled::words(random, RESULT_WORDS),
        };
        let name = format!("{}, call {}", self.name, self.calls);
        self.checker.take(name, take)
    }
}
