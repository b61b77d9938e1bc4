//! A stream cut into calls at random places, with what follows each call.

use super::call::{Call, Take};
use super::checker::Checker;
use super::image::{image, is_inside_wr_receiver, state, Image};
use super::layout::{at, CLOCK_OVER, DONE, LIST_FULL, OK, RECORD_LINE_BYTES, RESULT_WORDS};
use super::prefilled;
use cases::generate::bits;
use cases::{Random, Stream};
use reader::limits::{CLOCK_LIMIT, RECORD_WORDS};
use reader::Record;
use std::io;

/// What goes from each call to the next.
#[derive(Clone, Debug)]
pub struct Carried {
    pub image: Vec<u64>,
    pub store: Vec<u32>,
    pub tray: Vec<u8>,
}

/// What came of a stream, whatever its cuts.
#[derive(Debug, PartialEq, Eq)]
pub struct Outcome {
    pub records: Vec<[u64; 2]>,
    /// With 0 for the words that mean nothing.
    image: Option<Image>,
    store: Vec<u32>,
    tray: Vec<u8>,
}

impl Outcome {
    pub fn of(records: Vec<[u64; 2]>, carried: Carried) -> Outcome {
        Outcome {
            records,
            image: state(&carried.image).map(|state| image(&state)),
            store: carried.store,
            tray: carried.tray,
        }
    }
}

/// Takes all bits, or all that the clock has cycles for.
pub fn run(
    checker: &mut Checker,
    name: &str,
    bits: &[bool],
    carried: Carried,
    random: &mut Random,
) -> io::Result<Outcome> {
    let mut runner = Runner {
        checker,
        name,
        calls: 0,
        carried,
        records: Vec::new(),
    };
    let mut place = 0;
    while place < bits.len() {
        let length = (piece_length(random) as usize).min(bits.len() - place);
        let piece = Piece::of(bits, place, length, random);
        runner.piece(piece, random)?;
        place += length;
    }
    Ok(Outcome::of(runner.records, runner.carried))
}

/// Often short, now and then 0; long ones too, as frames are long.
fn piece_length(random: &mut Random) -> u64 {
    match random.below(8) {
        0 => random.below(3),
        1 | 2 => random.below(40),
        3 | 4 => random.below(200),
        5 | 6 => random.below(2_000),
        _ => random.below(40_000),
    }
}

/// Bits of a stream within an input, which has other bits on either side.
struct Piece {
    input: Vec<u8>,
    first: u64,
    left: u64,
}

impl Piece {
    /// The piece between random bits, or within the whole stream.
    fn of(stream: &[bool], place: usize, length: usize, random: &mut Random) -> Piece {
        let few = |random: &mut Random| random.below(20) as u32;
        let ahead = few(random);
        let mut packed = Stream::new().raw(&bits(random, ahead));
        let first = if random.one_in(4) && stream.len() < 4_000 {
            packed = packed.raw(stream);
            ahead as usize + place
        } else {
            let after = few(random);
            packed = packed.raw(&stream[place..place + length]);
            packed = packed.raw(&bits(random, after));
            ahead as usize
        };
        Piece {
            input: packed.bytes(),
            first: first as u64,
            left: length as u64,
        }
    }
}

/// A list under way; its words from `free` on are free.
struct List {
    words: Vec<u64>,
    free: usize,
}

impl List {
    fn new(random: &mut Random) -> List {
        let free = random.below(6) as usize;
        let room = random.below(8) as usize;
        List {
            words: prefilled::words(random, free + room),
            free,
        }
    }
}

struct Runner<'a> {
    checker: &'a mut Checker,
    name: &'a str,
    calls: usize,
    carried: Carried,
    records: Vec<[u64; 2]>,
}

impl Runner<'_> {
    /// Takes a piece, going on after 'frame' and 'list full' with the rest.
    fn piece(&mut self, mut piece: Piece, random: &mut Random) -> io::Result<()> {
        let mut list = List::new(random);
        loop {
            let (answer, after) = self.take(&piece, &list, random)?;
            match answer {
                OK => {}
                CLOCK_OVER => {
                    // The rest has no cycles; go on with what has.
                    piece.left = CLOCK_LIMIT - self.carried.image[at::NEXT];
                    continue;
                }
                _ => {
                    let fault = format!("the separate reader rejects it with {answer}");
                    return self.checker.report(self.call_name(), Some(fault));
                }
            }
            let [taken, written, ending] = after.result[..] else {
                unreachable!("a result has three words");
            };
            piece.first += taken;
            piece.left -= taken;
            self.check_records(&after, list.free, written as usize, random)?;
            if ending == DONE {
                return Ok(());
            }
            list.words = after.list;
            list.free += RECORD_WORDS * written as usize;
            if ending == LIST_FULL || random.bit() {
                list = List::new(random);
            }
        }
    }

    fn call_name(&self) -> String {
        format!("{}, call {}", self.name, self.calls)
    }

    fn take(&mut self, piece: &Piece, list: &List, random: &mut Random) -> io::Result<(u64, Take)> {
        self.calls += 1;
        let mut image = self.carried.image.clone();
        // It means nothing there, whatever it is.
        if is_inside_wr_receiver(&image) && random.bit() {
            image[at::GROUP] = random.below(256);
        }
        let take = Take {
            image,
            input: piece.input.clone(),
            first: piece.first,
            count: piece.left,
            store: self.carried.store.clone(),
            tray: self.carried.tray.clone(),
            list: list.words.clone(),
            free: list.free as u64,
            result: prefilled::words(random, RESULT_WORDS),
        };
        let (answer, after) = self.checker.take(self.call_name(), take)?;
        if answer == OK {
            self.carried.image.clone_from(&after.image);
            self.carried.store.clone_from(&after.store);
            self.carried.tray.clone_from(&after.tray);
        }
        Ok((answer, after))
    }

    /// The lines of a call's records, and its frame, if it ended with one.
    fn check_records(
        &mut self,
        after: &Take,
        free: usize,
        written: usize,
        random: &mut Random,
    ) -> io::Result<()> {
        let words = &after.list[free..free + RECORD_WORDS * written];
        for record in words.chunks_exact(RECORD_WORDS) {
            let record = [record[0], record[1]];
            self.records.push(record);
            self.line(record, random)?;
            if let Some(bits) = Record::from_words(record).frame_bits() {
                self.frame(record, bits, &after.tray)?;
            }
        }
        Ok(())
    }

    fn line(&mut self, [head, value]: [u64; 2], random: &mut Random) -> io::Result<()> {
        let length = RECORD_LINE_BYTES + [0, 1, 20][random.below(3) as usize];
        let mut lengths = vec![length];
        if random.one_in(8) {
            lengths.extend([0, RECORD_LINE_BYTES - 1]);
        }
        for length in lengths {
            let name = format!("{}, line of {length} bytes", self.call_name());
            let line = prefilled::bytes(random, length);
            let call = Call::RecordLine { line, head, value };
            self.checker.check(name, &call)?;
        }
        Ok(())
    }

    fn frame(&mut self, [head, value]: [u64; 2], bits: u64, tray: &[u8]) -> io::Result<()> {
        let name = format!("{}, frame", self.call_name());
        self.checker
            .check(name.clone(), &Call::FrameBits { head, value })?;
        let tray = tray.to_vec();
        self.checker.check(name, &Call::FramePart { tray, bits })?;
        Ok(())
    }
}
