//! However a stream is cut into calls, it gives the same records, state,
//! store and tray ("A taking call").

mod common;

use cases::code::{FLIPPED_LV1, LV1_TAIL};
use cases::generate::{self, Noise};
use cases::Random;
use cases::Stream;
use common::{earlier, Reader, PLANS};
use reader::{Plan, Record, State};

const KINDS: u64 = 4;

/// Streams of whole commands; with flips anywhere; with flips of LV1 alone; and
/// of random bits.
fn random_stream(random: &mut Random, kind: u64) -> Stream {
    match kind {
        0 => generate::commands(random, 40),
        1 => {
            let mut stream = generate::commands(random, 40);
            generate::flip_some(&mut stream, random, 60);
            stream
        }
        2 => generate::flipped_commands(random, 40),
        _ => Stream::new().raw(&generate::bits(random, 1_500)),
    }
}

fn random_start(random: &mut Random, plan: Plan) -> Reader {
    let mut reader = Reader::opened_by(plan);
    let state: &mut State = &mut reader.state;
    state.run_mode = random.bit();
    state.next_cycle = random.below(1 << 40);
    state.base_cycle = random.below(state.next_cycle + 1);
    state.l1id = random.below(256) as u32;
    if state.next_cycle > 0 && random.bit() {
        // Often just ahead, so that the first record is too close to it.
        let kind = [0x01, 0x11, 0x12, 0x18, 0x2F][random.below(5) as usize];
        state.earlier = earlier(state.next_cycle - 1, kind);
    }
    state.registers[2] = random.word() as u16;
    state.registers[5] = random.below(64) as u16;
    for word in &mut reader.store {
        *word = random.word() as u32;
    }
    for byte in &mut reader.tray {
        *byte = random.word() as u8;
    }
    reader
}

fn read_cut(
    reader: &mut Reader,
    stream: &Stream,
    random: &mut Random,
    longest: u64,
    rooms: u64,
) -> Vec<Record> {
    let bytes = stream.bytes();
    let count = stream.bits.len() as u64;
    let mut records = Vec::new();
    let mut place = 0;
    while place < count {
        let part = random.below(longest + 1).min(count - place);
        let room = 1 + random.below(rooms) as usize;
        records.extend(reader.read_part(&bytes, place, part, room));
        place += part;
    }
    records
}

/// The default plan and mask 007F in turn.
fn plan(turn: u64) -> Plan {
    let (plan, _) = PLANS[turn as usize % PLANS.len()];
    plan
}

#[test]
fn random_cuts_and_short_lists() {
    let mut random = Random::new(1);
    let mut frames = 0;
    let mut total = 0;
    for round in 0..2_400 {
        let stream = random_stream(&mut random, round % KINDS);
        let start = random_start(&mut random, plan(round / KINDS));
        let mut whole = start.clone();
        let bytes = stream.bytes();
        let records = whole.read_part(&bytes, 0, stream.bits.len() as u64, 5_000);
        total += records.len();
        frames += whole.frames.len();
        for (longest, rooms) in [(1, 1), (3, 2), (40, 3), (700, 1), (100_000, 2)] {
            let mut reader = start.clone();
            let cut = read_cut(&mut reader, &stream, &mut random, longest, rooms);
            assert_eq!(cut, records, "round {round}, parts up to {longest}");
            assert_eq!(reader, whole, "round {round}, parts up to {longest}");
        }
    }
    // The rounds must be about something.
    assert!(total > 40_000 && frames > 1_000, "{total} {frames}");
}

/// Document 02, F-4: the vote is that of the whole group, in whichever calls
/// its cycles came.
#[test]
fn noisy_groups_cut_at_random_places() {
    let mut random = Random::new(7);
    let mut frames = 0;
    let noises = [Noise::Late, Noise::Any, Noise::Cycles(3), Noise::Cycles(20)];
    for round in 0..400 {
        let noise = noises[round as usize % noises.len()];
        let stream = generate::noisy_commands(noise, &mut random, 30);
        let start = random_start(&mut random, plan(round / 4));
        let mut whole = start.clone();
        let bytes = stream.bytes();
        let records = whole.read_part(&bytes, 0, stream.bits.len() as u64, 5_000);
        frames += whole.frames.len();
        for (longest, rooms) in [(1, 1), (3, 2), (11, 2), (40, 3), (700, 1)] {
            let mut reader = start.clone();
            let cut = read_cut(&mut reader, &stream, &mut random, longest, rooms);
            assert_eq!(cut, records, "round {round}, parts up to {longest}");
            assert_eq!(reader, whole, "round {round}, parts up to {longest}");
        }
    }
    assert!(frames > 1_000, "{frames}");
}

/// Document 02, F-5: the record before may have come in another call.
#[test]
fn crowded_commands_cut_at_random_places() {
    let mut random = Random::new(8);
    let mut close = 0;
    for round in 0..400 {
        let mut stream = generate::crowded_commands(&mut random, 40);
        if round % 4 == 3 {
            generate::flip_some(&mut stream, &mut random, 60);
        }
        let start = random_start(&mut random, plan(round));
        let mut whole = start.clone();
        let bytes = stream.bytes();
        let records = whole.read_part(&bytes, 0, stream.bits.len() as u64, 5_000);
        close += records.iter().filter(|r| r.flags & 0x20 != 0).count();
        for (longest, rooms) in [(1, 1), (3, 2), (11, 2), (40, 3), (700, 1)] {
            let mut reader = start.clone();
            let cut = read_cut(&mut reader, &stream, &mut random, longest, rooms);
            assert_eq!(cut, records, "round {round}, parts up to {longest}");
            assert_eq!(reader, whole, "round {round}, parts up to {longest}");
        }
    }
    assert!(close > 1_000, "{close}");
}

/// The same bits lent as one byte a call, at shifting first bits.
#[test]
fn other_inputs_with_the_same_bits() {
    let mut random = Random::new(2);
    for round in 0..160 {
        let stream = random_stream(&mut random, round % KINDS);
        let start = random_start(&mut random, plan(round / KINDS));
        let mut whole = start.clone();
        let records = whole.read(&stream);
        let mut reader = start;
        let mut moved = Vec::new();
        for part in stream.bits.chunks(5) {
            let ahead = random.below(20);
            let noise = generate::bits(&mut random, ahead as u32);
            let bytes = Stream::new().raw(&noise).raw(part).bytes();
            moved.extend(reader.read_part(&bytes, ahead, part.len() as u64, 2));
        }
        assert_eq!((moved, reader), (records, whole), "round {round}");
    }
}

/// The longest input, in bits (document 02, F-6), and document 01's.
const LONGEST: usize = 8 * 1_048_576;
const OLD_LONGEST: usize = 8 * 65_536;

/// The same bits anywhere in an input of a mebibyte, also across the end of
/// document 01's longest one and up to the very end.
#[test]
fn the_same_bits_within_a_mebibyte() {
    let mut random = Random::new(3);
    let noise = Stream::new().raw(&generate::bits(&mut random, LONGEST as u32));
    for round in 0..16 {
        let stream = random_stream(&mut random, round % KINDS);
        let start = random_start(&mut random, plan(round / KINDS));
        let mut alone = start.clone();
        let records = alone.read(&stream);
        let count = stream.bits.len();
        let across = OLD_LONGEST - random.below(count as u64) as usize;
        for place in [0, 1, across, OLD_LONGEST, LONGEST - count] {
            let mut longer = noise.clone();
            longer.bits[place..place + count].copy_from_slice(&stream.bits);
            let mut reader = start.clone();
            let within = reader.read_part(&longer.bytes(), place as u64, count as u64, 1_000);
            assert_eq!((&within, &reader), (&records, &alone), "from bit {place}");
        }
    }
}

/// A mebibyte of commands in one call, in calls of document 01's longest
/// input, and cut at random places.
#[test]
fn a_mebibyte_at_once_and_in_parts() {
    let mut random = Random::new(4);
    for (plan, _) in PLANS {
        let stream = generate::without_frames(&mut random, LONGEST - 5).lv1();
        let start = random_start(&mut random, plan);
        let mut whole = start.clone();
        let room = LONGEST / 8;
        let records = whole.read_part(&stream.bytes(), 0, LONGEST as u64, room);
        // One call: neither was the list filled, nor was there a frame.
        let one_call = records.len() < room && whole.frames.is_empty();
        assert!(one_call && records.len() > 400_000, "{}", records.len());

        let mut reader = start.clone();
        let mut parts = Vec::new();
        for part in stream.bytes().chunks(OLD_LONGEST / 8) {
            parts.extend(reader.read_part(part, 0, OLD_LONGEST as u64, 1_000));
        }
        assert!(parts == records && reader == whole, "in 16 calls");

        let mut reader = start;
        let cut = read_cut(&mut reader, &stream, &mut random, 100_000, 1_000);
        assert!(cut == records && reader == whole, "at random places");
    }
}

/// Cut at each place of a stream that has every command.
#[test]
fn one_cut_at_every_place() {
    let stream = Stream::new()
        .wr_register(5, 0x0011)
        .wr_register(2, 0x8001)
        .wr_fifo(0x0765_4321)
        .rd_fifo(15)
        .rd_register(2)
        // One that exists by the default plan only.
        .wr_register(9, 0x1234)
        .rd_register(9)
        .front_end(
            4,
            &[
                true, false, true, true, false, false, true, false, true, true,
            ],
        )
        .front_end(5, &[false; 10])
        .wr_receiver(&[true; 17 * 8])
        .reset_fe(9)
        .slow(12, 3)
        .en_data_take()
        .lv1()
        .bcr()
        .lv1()
        .ecr()
        .pattern("1101")
        .cal()
        .sync()
        .fast(15)
        .reset_mcc();
    let bytes = stream.bytes();
    let count = stream.bits.len() as u64;
    for (plan, _) in PLANS {
        let mut whole = Reader::opened_by(plan);
        let records = whole.read(&stream);
        assert_eq!(records.len(), 22);
        for cut in 0..=count {
            for room in [1, 100] {
                let mut reader = Reader::opened_by(plan);
                let mut parts = reader.read_part(&bytes, 0, cut, room);
                parts.extend(reader.read_part(&bytes, cut, count - cut, room));
                assert_eq!((&parts, &reader), (&records, &whole), "cut at {cut}");
            }
        }
    }
}

/// An LV1 with each of its bits hit, and the last four bits of one straight
/// after it.
fn flips(stream: Stream) -> Stream {
    FLIPPED_LV1.into_iter().fold(stream, |stream, bits| {
        stream.pattern(bits).pattern(LV1_TAIL)
    })
}

/// Document 02, F-1: the position is that of the whole window, in whichever
/// calls its bits came. Two cuts part the bits of one LV1 into three calls.
#[test]
fn flips_cut_at_every_two_places() {
    let stream = flips(flips(Stream::new()).en_data_take());
    let bytes = stream.bytes();
    let count = stream.bits.len() as u64;
    let mut whole = Reader::opened();
    let records = whole.read(&stream);
    let positions = records.iter().filter(|record| record.kind == 0x01);
    let positions = positions.map(|record| record.value / 65_536);
    assert!(positions.eq([[1, 1, 2, 1, 3, 1, 4, 1, 5, 1]; 2].concat()));
    for first in 0..=count {
        for second in first..=count {
            let mut reader = Reader::opened();
            let mut parts = Vec::new();
            for (from, to) in [(0, first), (first, second), (second, count)] {
                parts.extend(reader.read_part(&bytes, from, to - from, 2));
            }
            let cut = (&parts, &reader);
            assert_eq!(cut, (&records, &whole), "cut at {first} and {second}");
        }
    }
}
