//! Commands sent too close (document 02, F-5): the timing table in numbers,
//! each pair of commands at each distance, and what a state remembers.

mod common;

use cases::code::{FLIPPED_LV1, LV1_TAIL};
use cases::{crowded, fixed, generate, Case, Random, Stream};
use common::{cycles_of, distance, earlier, flagged, is_too_close, rec, zeros_asked, Reader};
use reader::group::Group;
use reader::limits::CLOCK_LIMIT;
use reader::{open, reading, slow, sound, timing, Earlier, Plan, Recogniser, Record};
use std::collections::BTreeSet;

/// The chip paper's Table 1-3: commands, following commands, distance. The
/// row of Slow says "see text", which asks for nothing.
const TABLE_1_3: [(&[u8], &[u8], u64); 8] = [
    (&[LV1], &[LV1], 0),
    (&[LV1], FAST_OR_SLOW, 0),
    (&[BCR, ECR, CAL], &[LV1], 0),
    (&[SYNC], &[LV1], 4),
    (&[BCR], FAST_OR_SLOW, 2),
    (&[CAL, SYNC], FAST_OR_SLOW, 0),
    (&[ECR], FAST_OR_SLOW, 1),
    (SLOW, ANY, 0),
];

const LV1: u8 = 0x01;
const BCR: u8 = 0x11;
const ECR: u8 = 0x12;
const CAL: u8 = 0x14;
const SYNC: u8 = 0x18;
const BAD_FAST: u8 = 0x1F;
const BAD_SLOW: u8 = 0x2F;
const SLOW: &[u8] = &[
    0x20, 0x21, 0x22, 0x23, 0x24, 0x25, 0x26, 0x28, 0x29, 0x2A, BAD_SLOW,
];
/// Document 02, F-5: a bad Fast counts as a Fast when it follows.
const FAST_OR_SLOW: &[u8] = &[
    BCR, ECR, CAL, SYNC, BAD_FAST, 0x20, 0x21, 0x22, 0x23, 0x24, 0x25, 0x26, 0x28, 0x29, 0x2A,
    BAD_SLOW,
];
const ANY: &[u8] = &[
    LV1, BCR, ECR, CAL, SYNC, BAD_FAST, 0x20, 0x21, 0x22, 0x23, 0x24, 0x25, 0x26, 0x28, 0x29, 0x2A,
    BAD_SLOW,
];

#[test]
fn table_1_3_in_numbers() {
    let mut seen = BTreeSet::new();
    for (firsts, seconds, zeros) in TABLE_1_3 {
        for &first in firsts {
            for &second in seconds {
                assert!(seen.insert((first, second)), "{first:02X} {second:02X}");
                assert_eq!(timing::zeros_asked(first, second), zeros);
            }
        }
    }
    // A bad Fast asks for nothing after itself, nor does any other number.
    for first in (0..=255).filter(|first| *first == BAD_FAST || !ANY.contains(first)) {
        for &second in ANY {
            assert!(seen.insert((first, second)));
            assert_eq!(timing::zeros_asked(first, second), 0, "{first:02X}");
        }
    }
    assert_eq!(seen.len(), 256 * ANY.len());
    // The tests' own table is the same.
    for (first, second) in seen {
        let zeros = timing::zeros_asked(first, second) as i64;
        assert_eq!(zeros, zeros_asked(first, second));
    }
}

/// CNT for frames of no bits, of control bits, data bits and both.
const CNTS: [u16; 8] = [0, 1, 7, 8, 9, 0x0012, 0xE000, 0xFFFF];

/// Bits of a frame as long as CNT says.
fn frame(field3: u8, cnt: u16) -> Stream {
    let cnt = u32::from(cnt);
    if field3 == 6 {
        return Stream::new().wr_receiver(&vec![true; (cnt % 8_192 * 8) as usize]);
    }
    let bits = cnt / 8 + cnt % 8 * 8;
    Stream::new().front_end(field3, &vec![true; bits as usize])
}

/// A command of each kind, by a CNT: its kind, its first bit counted from its
/// pattern's first, which 1101 alone does not have, and its pattern.
fn commands(cnt: u16) -> Vec<(u8, i64, Stream)> {
    let new = Stream::new;
    let mut commands = vec![
        (LV1, 0, new().lv1()),
        (LV1, -1, new().pattern(LV1_TAIL)),
        (BCR, 0, new().bcr()),
        (ECR, 0, new().ecr()),
        (CAL, 0, new().cal()),
        (SYNC, 0, new().sync()),
        (0x20, 0, new().wr_register(2, 0xFFFF)),
        (0x21, 0, new().rd_register(2)),
        (0x22, 0, new().wr_fifo(0x07FF_FFFF)),
        (0x23, 0, new().rd_fifo(9)),
        (0x24, 0, frame(4, cnt)),
        (0x25, 0, frame(5, cnt)),
        (0x26, 0, frame(6, cnt)),
        (0x28, 0, new().en_data_take()),
        (0x29, 0, new().reset_mcc()),
        (0x2A, 0, new().reset_fe(15)),
    ];
    commands.extend(FLIPPED_LV1.map(|bits| (LV1, 0, new().pattern(bits))));
    for body in [0, 3, 5, 6, 7, 9, 10, 12, 13, 14, 15] {
        commands.push((BAD_FAST, 0, new().fast(body)));
    }
    for field3 in [7, 11, 12, 13, 14, 15] {
        commands.push((BAD_SLOW, 0, new().slow(field3, 15)));
    }
    commands
}

/// "A Slow's or bad Slow's is its header's first, reckoned back by its
/// length": each command has as many bits as were put into it.
#[test]
fn the_bits_of_every_command() {
    for cnt in CNTS {
        for (kind, ahead, command) in commands(cnt) {
            let bits = command.bits.len() as i64 - ahead;
            assert_eq!(timing::bits(kind, cnt) as i64, bits, "{kind:02X} {cnt:04X}");
        }
    }
    for (kind, cnt, bits) in [
        (LV1, 0xFFFF, 5),
        (BCR, 0xFFFF, 9),
        (BAD_FAST, 0xFFFF, 9),
        (0x24, 0xFFFF, 17 + 65_976),
        (0x26, 0xFFFF, 17 + 65_528),
        (0x26, 0xE000, 17),
        (BAD_SLOW, 0xFFFF, 17),
    ] {
        assert_eq!(timing::bits(kind, cnt), bits);
    }
}

fn with_cnt(cnt: u16, run_mode: bool) -> Reader {
    let mut reader = Reader::with_run_mode(run_mode);
    reader.state.registers[5] = cnt;
    reader
}

/// Each command after each other with each count of zeros between, in and
/// out of RunMode: too close with fewer than asked, and so just one fewer,
/// and not with as many.
#[test]
fn each_pair_at_each_distance() {
    let mut counts = [0; 2];
    for (first_kind, _, first) in commands(9) {
        // GlobalResetMCC leaves CNT 0.
        let cnt = if first_kind == 0x29 { 0 } else { 9 };
        for (second_kind, ahead, second) in commands(cnt) {
            for zeros in 0..=6 {
                for run_mode in [true, false] {
                    let pair = Stream::new().zeros(5).raw(&first.bits);
                    let pair = pair.zeros(zeros).raw(&second.bits);
                    let records = with_cnt(9, run_mode).read(&pair);
                    let kinds = records.iter().map(|record| record.kind);
                    assert!(kinds.eq([first_kind, second_kind]));
                    // The first has nothing ahead of it.
                    assert_eq!(records[0].flags & 0x20, 0);
                    let lies = zeros as i64 + ahead;
                    let before = earlier(records[0].time, first_kind);
                    assert_eq!(distance(before, &records[1]), lies);
                    let close = lies < zeros_asked(first_kind, second_kind);
                    let told = records[1].flags & 0x20 != 0;
                    let context = format!("{first_kind:02X} {zeros} {second_kind:02X}");
                    assert_eq!(told, close, "{context}");
                    counts[usize::from(close)] += 1;
                }
            }
        }
    }
    assert_eq!(counts, [19_898, 318]);
}

/// Just the asked zeros and one fewer, in numbers.
#[test]
fn off_by_one() {
    let flags = |stream: Stream, run_mode| {
        let records = Reader::with_run_mode(run_mode).read(&stream);
        records[1].flags
    };
    let new = Stream::new;
    for (zeros, acted_on, not_acted_on) in [(1, 0x21, 0x20), (2, 0x01, 0x00)] {
        let pair = new().bcr().zeros(zeros).cal();
        assert_eq!(flags(pair.clone(), true), acted_on);
        // A BCR that is not acted on asks for as many.
        assert_eq!(flags(pair, false), not_acted_on);
    }
    assert_eq!(flags(new().ecr().bcr(), true), 0x21);
    assert_eq!(flags(new().ecr().zeros(1).bcr(), true), 0x01);
    assert_eq!(flags(new().sync().zeros(3).lv1(), true), 0x25);
    assert_eq!(flags(new().sync().zeros(4).lv1(), true), 0x05);
    // An LV1 with flip counts as an LV1, and begins with its five bits.
    assert_eq!(flags(new().sync().zeros(3).pattern("10101"), true), 0x27);
    assert_eq!(flags(new().sync().zeros(4).pattern("10101"), true), 0x07);
    assert_eq!(flags(new().sync().zeros(3).pattern("01101"), true), 0x27);
    assert_eq!(flags(new().sync().zeros(4).pattern("01101"), true), 0x07);
    assert_eq!(flags(new().sync().zeros(4).pattern(LV1_TAIL), true), 0x27);
    // A bad Fast, a Slow and a bad Slow count as a Fast when they follow.
    assert_eq!(flags(new().bcr().zeros(1).fast(15), true), 0x20);
    assert_eq!(flags(new().bcr().zeros(2).fast(15), true), 0x00);
    assert_eq!(flags(new().bcr().zeros(1).reset_fe(0), true), 0x21);
    assert_eq!(flags(new().bcr().zeros(2).reset_fe(0), true), 0x01);
    assert_eq!(flags(new().ecr().slow(15, 0), true), 0x20);
    assert_eq!(flags(new().ecr().zeros(1).slow(15, 0), true), 0x00);
    // A missing register, and an unsteady group, with flag 20 beside theirs.
    assert_eq!(flags(new().bcr().rd_register(15), true), 0x28);
    let mut reader = with_cnt(8, true);
    let records = reader.read(&new().ecr().groups(4, &[0x7F]));
    assert_eq!(records[1].flags, 0x31);
}

/// None of the three asks for zeros after itself, whatever its body or fields
/// are: a body 0001 with a bit hit is no BCR.
#[test]
fn a_bad_fast_a_slow_and_a_bad_slow_ask_for_nothing() {
    let asking = |kind: u8| [BCR, ECR, SYNC].contains(&kind);
    for (first_kind, _, first) in commands(8) {
        for (_, ahead, second) in commands(if first_kind == 0x29 { 0 } else { 8 }) {
            let pair = Stream::new().raw(&first.bits).raw(&second.bits);
            let records = with_cnt(8, true).read(&pair);
            // The first is one whose first bit the window does not have.
            let [.., last] = &records[..] else {
                panic!("no records");
            };
            if !asking(first_kind) {
                assert_eq!(last.flags & 0x20 != 0, ahead < 0, "{first_kind:02X}");
            }
        }
    }
}

/// 1101 straight after any command has distance -1: always too close.
#[test]
fn straight_after_a_command() {
    for (kind, _, command) in commands(1) {
        let stream = Stream::new().zeros(5).raw(&command.bits).pattern(LV1_TAIL);
        let records = with_cnt(1, false).read(&stream);
        let [first, second] = records[..] else {
            panic!("{kind:02X}: {records:X?}");
        };
        assert_eq!(distance(earlier(first.time, kind), &second), -1);
        assert_eq!(second.kind, LV1);
        assert_eq!(second.flags & 0x22, 0x22, "{kind:02X}");
    }
}

/// Kinds of an earlier record: none, all that there are, and others.
fn earlier_kinds() -> Vec<u8> {
    [&[0x00], ANY, &[0x10, 0x27, 0x77, 0xFF]].concat()
}

/// A sound state just ahead of a record's last bit, and that record: every
/// window with an LV1's first four bits, and every field's last bit.
fn last_bits(cnt: u16) -> Vec<(Recogniser, bool)> {
    let mut states = Vec::new();
    for window in 0..32 {
        for bit in [false, true] {
            let meaning = reader::window::meaning(reader::window::slide(window, bit));
            if matches!(meaning, reader::window::Meaning::Lv1 { .. }) {
                states.push((Recogniser::Hunting { window }, bit));
            }
        }
    }
    for held in 0..8 {
        // Body 1011 is a Slow's, which has no record yet.
        for bit in [false, true].into_iter().filter(|bit| held != 5 || !bit) {
            let received = 3;
            states.push((Recogniser::Body { held, received }, bit));
        }
    }
    for field3 in 0..16 {
        match slow::field5_cycles(field3, cnt) {
            None | Some(0) => {
                let (held, received) = (0b101, 3);
                let field4 = Recogniser::Field4 {
                    field3,
                    held,
                    received,
                };
                states.push((field4, true));
            }
            Some(cycles) => {
                let field5 = Recogniser::Field5 {
                    field3,
                    field4: 2,
                    held: 0,
                    received: cycles - 1,
                    group: Group::default(),
                };
                states.push((field5, true));
            }
        }
    }
    states
}

/// From sound states whose command began long before the earlier record, and
/// even ahead of cycle 0: a distance far below 0 is too close, and no sum or
/// difference goes wrong.
#[test]
fn overlapping_in_sound_states() {
    let mut before_cycle_0 = 0;
    let mut counts = [0; 2];
    for cnt in [0, 8, 0x0012, 0xFFFF] {
        for (recogniser, bit) in last_bits(cnt) {
            for next in [1, 2, 3, 8, 9, 40, 70_000] {
                for back in 1..=next.min(40) {
                    for kind in earlier_kinds() {
                        let mut reader = with_cnt(cnt, false);
                        reader.state.recogniser = recogniser;
                        reader.state.next_cycle = next;
                        reader.state.earlier = earlier(next - back, kind);
                        assert!(sound(&reader.state), "{recogniser:?}");
                        let before = reader.state.earlier;
                        let records = reader.read(&Stream::new().raw(&[bit]));
                        let [record] = records[..] else {
                            panic!("{recogniser:?}: {records:X?}");
                        };
                        assert_eq!(record, flagged(before, record), "{recogniser:?} {before:?}");
                        let close = record.flags & 0x20 != 0;
                        assert!(!close || kind != 0);
                        counts[usize::from(close)] += 1;
                        let first_bit = next as i64 - (cycles_of(&record) - 1);
                        before_cycle_0 += u32::from(first_bit < 0);
                        assert_eq!(reader.state.earlier, earlier(next, record.kind));
                    }
                }
            }
        }
    }
    assert!(counts.iter().all(|&count| count > 1_000), "{counts:?}");
    assert!(before_cycle_0 > 1_000, "{before_cycle_0}");
}

/// A first bit before cycle 0, in numbers.
#[test]
fn a_first_bit_before_cycle_0() {
    let mut reader = Reader::running();
    reader.state.next_cycle = 1;
    reader.state.recogniser = Recogniser::Hunting { window: 0b1110 };
    let no_earlier = reader.clone();
    reader.state.earlier = earlier(0, LV1);
    // Its first bit would have cycle -3.
    let last = Stream::new().pattern("1");
    assert_eq!(reader.read(&last), [rec(1, LV1, 0x25, 0x0001)]);
    assert_eq!(no_earlier.clone().read(&last), [rec(1, LV1, 0x05, 0x0001)]);
    // Straight after a record at cycle 0: 1101 has cycles 1 to 4.
    let mut reader = Reader::running();
    reader.state.next_cycle = 1;
    reader.state.earlier = earlier(0, BCR);
    let tail = Stream::new().pattern(LV1_TAIL);
    assert_eq!(reader.read(&tail), [rec(4, LV1, 0x27, 0x0001_0004)]);
}

/// GlobalResetMCC's own record is the earlier one; it clears nothing.
#[test]
fn over_global_reset_mcc() {
    let new = Stream::new;
    let records = |stream: Stream| Reader::running().read(&stream);
    let flags = |stream: Stream| -> Vec<u8> {
        let records = records(stream);
        records.iter().map(|record| record.flags).collect()
    };
    assert_eq!(flags(new().bcr().zeros(1).reset_mcc().bcr()), [1, 0x21, 0]);
    assert_eq!(flags(new().bcr().zeros(2).reset_mcc().bcr()), [1, 1, 0]);
    // It is remembered: what overlaps it is too close.
    let stream = new().zeros(50).reset_mcc().pattern(LV1_TAIL);
    assert_eq!(flags(stream), [0x01, 0x22]);
    // And it is not BCR any more that is asked.
    let mut reader = Reader::opened();
    reader.state.next_cycle = 100;
    reader.state.earlier = earlier(99, BCR);
    let records = reader.read(&new().reset_mcc().en_data_take());
    assert_eq!(records[0], rec(116, 0x29, 0x21, 0));
    assert_eq!(records[1], rec(133, 0x28, 0x01, 0));
    assert_eq!(reader.state.earlier, earlier(133, 0x28));
}

/// Field 5's length is by CNT as it stands ahead of the record's effect: a
/// WrRegister to CNT has its own 16 bits, and what follows goes by the new
/// CNT.
#[test]
fn by_the_cnt_ahead_of_the_record() {
    for field3 in [4, 5, 6] {
        for (before, now) in [(0, 9), (9, 0), (0x0012, 0x0003), (0xFFFF, 8), (8, 0xE000)] {
            if field3 != 6 && now == 0xE000 {
                continue;
            }
            for zeros in 0..=3 {
                let stream = Stream::new().bcr().zeros(zeros).wr_register(5, now);
                let stream = stream.raw(&frame(field3, now).bits).ecr().zeros(zeros);
                let stream = stream.raw(&frame(field3, now).bits);
                let records = with_cnt(before, true).read(&stream);
                let close: Vec<bool> = records
                    .iter()
                    .map(|record| record.flags & 0x20 != 0)
                    .collect();
                let expected = [false, zeros < 2, false, false, zeros < 1];
                assert_eq!(close, expected, "{field3} {before:04X} {now:04X} {zeros}");
            }
        }
    }
}

/// The last cycle at which a frame is too close, by many CNT, where the
/// earlier record is anywhere ahead of the frame's end.
#[test]
fn the_length_of_a_frame_by_every_cnt() {
    for cnt in (0..=255).chain([0x1FFF, 0x2000, 0xE001, 0xFFF8, 0xFFFF]) {
        for field3 in [4, 5, 6] {
            let (kind, length) = (0x20 + field3, frame(field3, cnt).bits.len() as u64);
            for (first, asked) in [(BCR, 2), (ECR, 1), (SYNC, 0), (LV1, 0), (BAD_SLOW, 0)] {
                for time in [length + asked - 1, length + asked] {
                    let before = earlier(0, first);
                    let close = before.is_too_close(kind, time, cnt);
                    assert_eq!(close, time < length + asked, "{cnt:04X} {field3}");
                }
            }
        }
    }
}

/// Pairs, and all of what is remembered, however they are cut into calls.
#[test]
fn cut_at_every_place() {
    let mut random = Random::new(50);
    let mut close = 0;
    for _ in 0..60 {
        let stream = generate::crowded_commands(&mut random, 12);
        let count = stream.bits.len() as u64;
        let bytes = stream.bytes();
        let mut whole = Reader::opened();
        let records = whole.read(&stream);
        close += records.iter().filter(|r| r.flags & 0x20 != 0).count();
        for cut in 0..=count {
            let mut reader = Reader::opened();
            let mut parts = reader.read_part(&bytes, 0, cut, 2);
            parts.extend(reader.read_part(&bytes, cut, count - cut, 3));
            assert_eq!(parts, records, "cut at {cut}");
            assert_eq!(reader, whole, "cut at {cut}");
        }
        let mut reader = Reader::opened();
        let one = |bit| reader.read_part(&bytes, bit, 1, 1);
        let parts: Vec<Record> = (0..count).flat_map(one).collect();
        assert_eq!((parts, reader), (records, whole));
    }
    assert!(close > 60, "{close}");
}

/// What the state remembers after every cycle: the last record, and nothing
/// ahead of the first.
#[test]
fn after_every_cycle() {
    let mut random = Random::new(51);
    for _ in 0..20 {
        let stream = generate::crowded_commands(&mut random, 20);
        let bytes = stream.bytes();
        let mut reader = Reader::opened();
        let mut remembered = Earlier::NONE;
        for bit in 0..stream.bits.len() as u64 {
            for record in reader.read_part(&bytes, bit, 1, 1) {
                remembered = earlier(record.time, record.kind);
            }
            assert_eq!(reader.state.earlier, remembered, "cycle {bit}");
        }
    }
}

/// Whatever it is, and at whatever cycle; of a state without an earlier
/// record the time means nothing, and stays.
#[test]
fn the_first_record_after_an_opening_is_never_flagged() {
    for cycle in [0, 1, 255, 1 << 40, CLOCK_LIMIT - 700] {
        for (kind, _, command) in commands(0) {
            for zeros in [0, 1, 2] {
                let (number, state) = open(Plan::DEFAULT, cycle);
                assert_eq!((number, state.earlier), (None, earlier(0, 0)));
                let stream = Stream::new().zeros(zeros).raw(&command.bits);
                let records = Reader::new(state).read(&stream);
                assert_eq!((records[0].kind, records[0].flags & 0x20), (kind, 0));
            }
        }
    }
    for time in [0, 999, 1_000, CLOCK_LIMIT, u64::MAX] {
        let mut reader = Reader::running();
        reader.state.next_cycle = 1_000;
        reader.state.earlier = earlier(time, 0);
        assert_eq!(reader.read(&Stream::new().pattern("110")), []);
        assert_eq!(reader.state.earlier, earlier(time, 0));
        let records = reader.read(&Stream::new().pattern("1"));
        assert_eq!(records[0].flags, 0x07, "{time}");
        assert_eq!(reader.state.earlier, earlier(1_003, LV1));
    }
}

/// A refused opening gives the default start state, which remembers nothing.
#[test]
fn a_refused_opening_remembers_nothing() {
    let (number, state) = open(Plan::DEFAULT, CLOCK_LIMIT);
    assert_eq!((number, state.earlier), (Some(2), earlier(0, 0)));
}

/// Streams of every kind, each record by the rule; then the same with
/// nothing remembered, where only flag 20 is another.
#[test]
fn random_streams() {
    let mut random = Random::new(52);
    let mut counts = [0; 2];
    for round in 0..600 {
        let mut stream = match round % 4 {
            0 => generate::commands(&mut random, 40),
            1 => generate::flipped_commands(&mut random, 40),
            2 => generate::crowded_commands(&mut random, 40),
            _ => Stream::new().raw(&generate::bits(&mut random, 1_500)),
        };
        if round % 8 >= 4 {
            generate::flip_some(&mut stream, &mut random, 50);
        }
        let mut start = Reader::with_run_mode(random.bit());
        start.state.next_cycle = random.below(1 << 40) + 1;
        start.state.base_cycle = start.state.next_cycle;
        let kinds = earlier_kinds();
        start.state.earlier = earlier(
            start.state.next_cycle - 1 - random.below(start.state.next_cycle).min(6),
            kinds[random.below(kinds.len() as u64) as usize],
        );
        let mut reader = start.clone();
        let records = reader.read(&stream);
        let mut before = start.state.earlier;
        for record in &records {
            let close = is_too_close(before, record);
            assert_eq!(record.flags & 0x20 != 0, close, "{before:?} {record:X?}");
            counts[usize::from(close)] += 1;
            before = earlier(record.time, record.kind);
        }
        assert_eq!(reader.state.earlier, before);

        let plain = forgetting(&mut start, &stream);
        let others = records.iter().map(|record| record.flags & !0x20);
        assert!(others.eq(plain.iter().map(|record| record.flags)));
        let rest = |record: &Record| (record.time, record.kind, record.value);
        assert!(records.iter().map(rest).eq(plain.iter().map(rest)));
        start.state.earlier = before;
        assert_eq!(start, reader);
    }
    assert!(counts.iter().all(|&count| count > 2_000), "{counts:?}");
}

/// The records of a reader whose earlier record is taken away after each.
fn forgetting(reader: &mut Reader, stream: &Stream) -> Vec<Record> {
    let bytes = stream.bytes();
    let mut records = Vec::new();
    for bit in 0..stream.bits.len() as u64 {
        reader.state.earlier = Earlier::NONE;
        records.extend(reader.read_part(&bytes, bit, 1, 1));
    }
    records
}

/// The records of a case's listing.
fn listed(case: &Case) -> Vec<Record> {
    let mut listing = Vec::new();
    reading(&case.input[..], &mut listing).expect("no failure");
    let listing = String::from_utf8(listing).expect("text");
    let number = |text: &str| u64::from_str_radix(text, 16).expect("digits");
    let record = |line: &str| {
        let (kind, flags) = (number(&line[13..15]) as u8, number(&line[16..18]) as u8);
        rec(number(&line[..12]), kind, flags, number(&line[19..]) as u32)
    };
    listing.lines().map(record).collect()
}

/// Two records as the cases vary them: their kinds, whether RunMode was on,
/// and the distance.
type Pair = (u8, u8, bool, i64);

fn pairs(case: &Case) -> Vec<Pair> {
    let records = listed(case);
    let pair = |pair: &[Record]| {
        let (first, second) = (&pair[0], &pair[1]);
        let before = earlier(first.time, first.kind);
        let close = second.flags & 0x20 != 0;
        assert_eq!(close, is_too_close(before, second), "{}", case.name);
        let acted_on = first.flags & 0x01 != 0;
        (
            first.kind,
            second.kind,
            acted_on,
            distance(before, second).min(7),
        )
    };
    records.windows(2).map(pair).collect()
}

/// The cases for comparison have every pair of kinds at every distance up to
/// six, in and out of RunMode, and LV1 at -1 after each.
#[test]
fn the_cases_have_every_pair() {
    let mut cases = fixed();
    cases.retain(|case| case.name.starts_with("crowded/"));
    let seen: BTreeSet<Pair> = cases.iter().flat_map(pairs).collect();
    for &first in ANY {
        let acted_on: &[bool] = match first {
            BAD_FAST | BAD_SLOW => &[false],
            0x20.. => &[true],
            _ => &[true, false],
        };
        for &acted_on in acted_on {
            for &second in ANY {
                for lies in 0..=6 {
                    let pair = (first, second, acted_on, lies);
                    assert!(seen.contains(&pair), "{pair:X?}");
                }
            }
            assert!(seen.contains(&(first, LV1, acted_on, -1)), "{first:02X}");
        }
    }
}

/// The generated ones have every entry of the table, just kept and not.
#[test]
fn the_generated_cases_are_crowded() {
    let cases = crowded(24);
    let seen: Vec<Pair> = cases.iter().flat_map(pairs).collect();
    let count = |first, lv1_follows, lies| {
        let fits = |pair: &&Pair| (pair.0, pair.1 == LV1, pair.3) == (first, lv1_follows, lies);
        seen.iter().filter(fits).count()
    };
    for (first, lv1_follows, asked) in [(BCR, false, 2), (ECR, false, 1), (SYNC, true, 4)] {
        assert!(count(first, lv1_follows, asked - 1) > 10);
        assert!(count(first, lv1_follows, asked) > 10);
    }
    for kind in ANY {
        assert!(seen.iter().any(|pair| pair.0 == *kind));
        assert!(seen.iter().any(|pair| pair.1 == *kind));
    }
    assert!(count(LV1, true, -1) > 10);
}
