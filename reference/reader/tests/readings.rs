//! What the commands do, and the readings where document 01 is silent.

mod common;

use cases::Stream;
use common::{earlier, rec, stream, Reader, PLANS};
use reader::limits::CLOCK_LIMIT;
use reader::{frame_part, open, take, Ending, Plan, Recogniser, Record, Warnings};

/// Kind, flags and value of each record.
fn without_time(records: &[Record]) -> Vec<(u8, u8, u32)> {
    records
        .iter()
        .map(|record| (record.kind, record.flags, record.value))
        .collect()
}

fn flags_of(records: &[Record]) -> Vec<u8> {
    records.iter().map(|record| record.flags).collect()
}

/// The records of a stream, read from cycle 0 out of RunMode.
fn read(stream: Stream) -> Vec<(u8, u8, u32)> {
    without_time(&Reader::opened().read(&stream))
}

#[test]
fn csr_reads_with_the_warnings_laid_over() {
    let mut reader = Reader::opened();
    let write = reader.read(&Stream::new().wr_register(0, 0xFFFF).rd_register(0));
    // The record keeps what arrived; bits 8 to 10 are not stored.
    assert_eq!(without_time(&write), [(0x20, 1, 0xFFFF), (0x21, 1, 0xF8FF)]);
    assert_eq!(reader.state.registers[0], 0xF8FF);

    for (fault, bit) in [
        ("11100", 0x0100),
        ("10110 1111", 0x0200),
        ("101101011 0111 0000", 0x0400),
    ] {
        for run_mode in [true, false] {
            let mut reader = Reader::with_run_mode(run_mode);
            reader.read(&stream(fault));
            let records = reader.read(&Stream::new().wr_register(0, 0).rd_register(0));
            assert_eq!(without_time(&records)[1], (0x21, 1, bit), "{fault}");
            reader.read(&Stream::new().reset_mcc());
            let records = reader.read(&Stream::new().rd_register(0));
            assert_eq!(without_time(&records), [(0x21, 1, 0)], "{fault}");
        }
    }
    // A stored bit 8 to 10 is sound, and a read masks it.
    let mut reader = Reader::opened();
    reader.state.registers[0] = 0x0F40;
    assert_eq!(
        without_time(&reader.read(&Stream::new().rd_register(0))),
        [(0x21, 1, 0x0840)]
    );
}

#[test]
fn csr_by_another_plan() {
    let plan = Plan {
        mask: 0x8421,
        csr: 15,
        feen: 10,
        cnt: 5,
    };
    let mut reader = Reader::new(open(plan, 0).1);
    reader.state.warnings.wfst = true;
    let stream = Stream::new()
        .wr_register(15, 0x0700)
        .rd_register(15)
        .wr_register(0, 0x0700)
        .rd_register(0);
    let values: Vec<u32> = reader
        .read(&stream)
        .iter()
        .map(|record| record.value)
        .collect();
    assert_eq!(values, [0xF_0700, 0xF_0200, 0x0700, 0x0700]);
}

#[test]
fn missing_registers() {
    for (plan, present) in PLANS {
        for address in 0..16 {
            let mut reader = Reader::opened_by(plan);
            let stream = Stream::new().wr_register(address, 0xABCD);
            let records = reader.read(&stream.rd_register(address));
            let high = u32::from(address) << 16;
            let flags = if address < present { 0x01 } else { 0x08 };
            let kept = match address {
                0 => 0xA8CD,
                _ if address < present => 0xABCD,
                _ => 0,
            };
            assert_eq!(
                without_time(&records),
                [(0x20, flags, high | 0xABCD), (0x21, flags, high | kept)],
                "{plan:?}"
            );
            let mut registers = [0; 16];
            registers[usize::from(address)] = kept as u16;
            assert_eq!(reader.state.registers, registers, "{plan:?}");
        }
    }
}

#[test]
fn rd_register_does_not_keep_its_field_5() {
    let mut reader = Reader::opened();
    reader.state.registers[3] = 0x1234;
    let records = reader.read(&Stream::new().slow(1, 3).number(0xFFFF, 16));
    assert_eq!(without_time(&records), [(0x21, 1, 0x0003_1234)]);
    assert_eq!(reader.state.registers[3], 0x1234);
}

#[test]
fn wr_fifo_writes_where_feen_is_1_and_wraps() {
    let mut reader = Reader::opened();
    reader.read(&Stream::new().wr_register(2, 0x8005));
    for n in 0..130 {
        reader.read(&Stream::new().wr_fifo(0x0700_0000 + n));
    }
    for fifo in 0..16 {
        let on = matches!(fifo, 0 | 2 | 15);
        assert_eq!(reader.state.write_pointers[fifo], if on { 2 } else { 0 });
        let words = &reader.store[128 * fifo..128 * (fifo + 1)];
        for (place, &word) in (0..).zip(words) {
            let last = if place < 2 { 128 + place } else { place };
            assert_eq!(word, if on { 0x0700_0000 + last } else { 0 });
        }
    }
}

#[test]
fn wr_fifo_with_feen_0_is_acted_on_and_writes_nothing() {
    let mut reader = Reader::opened();
    let records = reader.read(&Stream::new().wr_fifo(0x07FF_FFFF));
    assert_eq!(without_time(&records), [(0x22, 1, 0x07FF_FFFF)]);
    assert_eq!(reader.store, vec![0; 2_048]);
    assert_eq!(reader.state.write_pointers, [0; 16]);
}

#[test]
fn wr_fifo_writes_whole_words() {
    let mut reader = Reader::opened();
    reader.store.fill(u32::MAX);
    reader.state.registers[2] = 1;
    reader.read(&Stream::new().wr_fifo(5));
    assert_eq!(reader.store[..2], [5, u32::MAX]);
}

#[test]
fn rd_fifo_takes_27_bits_and_wraps() {
    let mut reader = Reader::opened();
    reader.store.fill(u32::MAX);
    reader.store[128 * 9 + 127] = 0xF800_0001;
    reader.state.read_pointers[9] = 126;
    let mut values = Vec::new();
    for _ in 0..3 {
        // Neither FEEN nor Field 5 matters.
        let records = reader.read(&Stream::new().slow(3, 9).number(0x0555_5555, 27));
        values.push(records[0].value);
    }
    let high = 9 << 27;
    assert_eq!(values, [high | 0x07FF_FFFF, high | 1, high | 0x07FF_FFFF]);
    assert_eq!(reader.state.read_pointers[9], 1);
    assert_eq!(reader.state.read_pointers[8], 0);
    assert_eq!(reader.state.write_pointers, [0; 16]);
}

#[test]
fn ecr_clears_l1id_and_pointers_only_in_run_mode() {
    for run_mode in [true, false] {
        let mut reader = Reader::with_run_mode(run_mode);
        reader.state.l1id = 77;
        reader.state.write_pointers = [9; 16];
        reader.state.read_pointers = [8; 16];
        reader.state.registers[6] = 6;
        reader.state.warnings.wslw = true;
        reader.store.fill(3);
        let before = reader.clone();
        let records = reader.read(&Stream::new().ecr());
        assert_eq!(records, [rec(8, 0x12, u8::from(run_mode), 0)]);
        let mut after = before;
        after.state.next_cycle = 9;
        after.state.earlier = earlier(8, 0x12);
        if run_mode {
            after.state.l1id = 0;
            after.state.write_pointers = [0; 16];
            after.state.read_pointers = [0; 16];
        }
        assert_eq!(reader, after);
    }
}

#[test]
fn global_reset_mcc() {
    for (plan, present) in PLANS {
        let mut reader = Reader::opened_by(plan);
        reader.state.l1id = 77;
        reader.state.write_pointers = [9; 16];
        reader.state.read_pointers = [8; 16];
        reader.state.registers[..usize::from(present)].fill(1);
        reader.state.warnings = Warnings {
            wlv1: true,
            wfst: true,
            wslw: true,
        };
        reader.store.fill(3);
        let records = reader.read(&Stream::new().zeros(100).reset_mcc());
        assert_eq!(records, [rec(116, 0x29, 0x01, 0)]);
        let mut fresh = Reader::opened_by(plan);
        fresh.state.next_cycle = 117;
        fresh.state.base_cycle = 116;
        // Its own record; nothing clears it (document 02, F-5).
        fresh.state.earlier = earlier(116, 0x29);
        fresh.store.fill(3);
        assert_eq!(reader, fresh);
    }
}

#[test]
fn the_base_of_the_bunch_number() {
    // EnDataTake moves no base; BCR does so in RunMode, GlobalResetMCC always.
    let (_, state) = open(Plan::DEFAULT, 1_000);
    let mut reader = Reader::new(state);
    reader.read(&Stream::new().bcr());
    assert_eq!(reader.state.base_cycle, 1_000);
    reader.read(&Stream::new().en_data_take());
    assert_eq!(reader.state.base_cycle, 1_000);
    let records = reader.read(&Stream::new().lv1().zeros(300).lv1().bcr().lv1());
    let values: Vec<u32> = records.iter().map(|record| record.value).collect();
    assert_eq!(values, [30, 0x100 + (335 % 256), 0, 0x205]);
    assert_eq!(reader.state.base_cycle, 1_000 + 344);
    let records = reader.read(&Stream::new().reset_mcc().en_data_take().lv1());
    assert_eq!(records[2].value, 17 + 5);
}

#[test]
fn l1id_wraps() {
    let mut reader = Reader::running();
    reader.state.l1id = 255;
    let records = reader.read(&Stream::new().lv1().lv1());
    assert_eq!(without_time(&records), [(1, 5, 0xFF04), (1, 5, 0x0009)]);
}

#[test]
fn an_lv1_is_sent_while_csr_bit_6_is_0() {
    for (csr, flags) in [(0, 0x05), (0x40, 0x01), (0xFFBF, 0x05), (0xFFFF, 0x01)] {
        let mut reader = Reader::running();
        reader.state.registers[0] = csr;
        let records = reader.read(&stream("11101 11100"));
        assert_eq!(flags_of(&records), [flags, flags | 2], "{csr:04X}");
    }
    let idle = read(stream("11101 11100"));
    assert_eq!(idle, [(1, 0, 0), (1, 2, 0x0005_0000)]);
}

#[test]
fn an_lv1_with_flip_out_of_run_mode_warns() {
    let mut reader = Reader::opened();
    reader.read(&stream("11111"));
    assert!(reader.state.warnings.wlv1);
    assert_eq!(reader.state.l1id, 0);
}

#[test]
fn warnings_come_in_the_cycle_of_the_record() {
    for bits in ["11100", "101101111", "10110101111110101"] {
        let bytes = stream(bits).bytes();
        let mut reader = Reader::running();
        reader.read_part(&bytes, 0, bits.len() as u64 - 1, 1);
        assert_eq!(reader.state.warnings, Warnings::default());
        reader.read_part(&bytes, bits.len() as u64 - 1, 1, 1);
        assert_ne!(reader.state.warnings, Warnings::default());
    }
}

#[test]
fn run_mode_ends_at_the_ninth_header_bit() {
    let bytes = Stream::new().en_data_take().bytes();
    let mut reader = Reader::running();
    reader.read_part(&bytes, 0, 8, 1);
    assert!(reader.state.run_mode);
    reader.read_part(&bytes, 8, 1, 1);
    assert!(!reader.state.run_mode);
    let begun = Recogniser::Field3 {
        held: 0,
        received: 0,
    };
    assert_eq!(reader.state.recogniser, begun);
    reader.read_part(&bytes, 9, 7, 1);
    assert!(!reader.state.run_mode);
    reader.read_part(&bytes, 16, 1, 1);
    assert!(reader.state.run_mode);
}

#[test]
fn a_damaged_slow_header_leaves_run_mode_on() {
    let records = Reader::running().read(&stream("10110 1010 0000 0000 11101"));
    assert_eq!(without_time(&records), [(0x1F, 0, 10), (1, 5, 0x0015)]);
}

#[test]
fn a_bad_fast_is_never_acted_on() {
    for run_mode in [true, false] {
        for body in [0, 3, 5, 6, 7, 9, 10, 12, 13, 14, 15] {
            let mut reader = Reader::with_run_mode(run_mode);
            let records = reader.read(&Stream::new().fast(body).lv1());
            assert_eq!(records[0], rec(8, 0x1F, 0, u32::from(body)));
            assert_eq!((records.len(), records[1].time), (2, 13));
            assert_eq!(reader.state.run_mode, run_mode);
        }
    }
}

#[test]
fn cal_and_sync_change_nothing() {
    for body in [4, 8] {
        for run_mode in [true, false] {
            let mut reader = Reader::with_run_mode(run_mode);
            reader.state.l1id = 5;
            let mut after = reader.clone();
            after.state.next_cycle = 9;
            after.state.earlier = earlier(8, 0x10 + body);
            let records = reader.read(&Stream::new().fast(body));
            assert_eq!(records, [rec(8, 0x10 + body, u8::from(run_mode), 0)]);
            assert_eq!(reader, after);
        }
    }
}

#[test]
fn empty_frames_end_with_field_4() {
    for (kind, cnt) in [
        (0x24, 0),
        (0x25, 0),
        (0x26, 0),
        (0x26, 0x2000),
        (0x26, 0xE000),
    ] {
        let mut reader = Reader::running();
        reader.state.registers[5] = cnt;
        reader.tray.fill(0x77);
        let input = Stream::new().slow(kind - 0x20, 15).bytes();
        let mut list = [0; 2];
        let answer = take(
            reader.state.clone(),
            &input,
            0,
            24,
            &mut reader.store,
            &mut reader.tray,
            &mut list,
            0,
        );
        // A frame's record that also fills the list ends with 'frame'.
        assert_eq!((answer.bits_taken, answer.ending), (17, Ending::Frame));
        assert_eq!(Record::from_words(list), rec(16, kind, 0x01, 0));
        assert!(reader.tray.iter().all(|&byte| byte == 0x77));
    }
}

#[test]
fn frame_bits_fill_the_tray() {
    let bits = [
        true, false, true, true, false, false, true, false, true, true,
    ];
    for (kind, cnt) in [(4, 10 << 3), (5, 2 << 3 | 1)] {
        let mut reader = Reader::opened();
        reader.state.registers[5] = cnt;
        reader.tray.fill(0xFF);
        let records = reader.read(&Stream::new().front_end(kind, &bits));
        let value = (u32::from(cnt & 7) * 8) << 16 | u32::from(cnt >> 3);
        assert_eq!(records, [rec(16 + 80, 0x20 + kind, 0x01, value)]);
        assert_eq!(reader.frames, [vec![0b1011_0010, 0b1100_0000]]);
        assert_eq!(reader.tray[2], 0xFF);
    }
}

#[test]
fn wr_receiver_carries_one_bit_a_cycle() {
    let mut reader = Reader::opened();
    reader.state.registers[5] = 0xFFFF;
    let bits: Vec<bool> = (0..65_528).map(|n| n % 7 < 3).collect();
    let records = reader.read(&Stream::new().wr_receiver(&bits));
    assert_eq!(records, [rec(16 + 65_528, 0x26, 0x01, 0x0000_FFF8)]);
    assert_eq!(reader.frames, [Stream::new().raw(&bits).bytes()]);
    assert_eq!(reader.tray[8_191], 0);
}

/// A bit is stored, and a new byte zeroed, in its group's eighth cycle
/// (document 02, F-4).
#[test]
fn the_tray_during_a_frame() {
    for kind in [4, 5] {
        let mut reader = Reader::opened();
        reader.state.registers[5] = 9 << 3;
        reader.tray.fill(0xFF);
        let bytes = Stream::new().front_end(kind, &[true; 9]).bytes();
        reader.read_part(&bytes, 0, 17, 1);
        assert_eq!(reader.tray[0], 0xFF);
        for cycle in 0..64 {
            reader.read_part(&bytes, 17 + cycle, 1, 1);
            let byte = match (cycle + 1) / 8 {
                0 => 0xFF,
                stored => !(0xFF_u16 >> stored) as u8,
            };
            assert_eq!(reader.tray[0], byte, "cycle {cycle}");
            assert_eq!(reader.tray[1], 0xFF);
        }
        for cycle in 64..71 {
            assert_eq!(reader.read_part(&bytes, 17 + cycle, 1, 1), []);
            assert_eq!(reader.tray[..3], [0xFF; 3], "cycle {cycle}");
        }
        // The last bit comes with the record.
        let records = reader.read_part(&bytes, 17 + 71, 1, 1);
        assert_eq!(records, [rec(16 + 72, 0x20 + kind, 0x01, 9)]);
        assert_eq!(reader.tray[..3], [0xFF, 0x80, 0xFF]);
    }
}

#[test]
fn unsteady_groups() {
    for kind in [4, 5] {
        for wrong in 0..24 {
            let mut reader = Reader::opened();
            reader.state.registers[5] = 3 << 3;
            let mut stream = Stream::new().front_end(kind, &[true, false, true]);
            stream.bits[17 + wrong] ^= true;
            let records = reader.read(&stream.slow(kind, 0).zeros(24));
            // The next frame's groups are steady again.
            assert_eq!(flags_of(&records), [0x11, 0x01], "bit {wrong}");
            // One wrong cycle, the first too, loses the vote.
            assert_eq!(reader.frames[0], [0b1010_0000], "bit {wrong}");
        }
    }
    // No groups in a WrReceiver.
    let mut reader = Reader::opened();
    reader.state.registers[5] = 1;
    let records = reader.read(&Stream::new().slow(6, 0).pattern("01010101"));
    assert_eq!(without_time(&records), [(0x26, 0x01, 8)]);
}

#[test]
fn global_reset_fe_changes_nothing() {
    for width in 0..16 {
        let mut reader = Reader::opened();
        reader.state.registers[6] = 6;
        let mut after = reader.clone();
        after.state.next_cycle = 21;
        after.state.earlier = earlier(20, 0x2A);
        let records = reader.read(&Stream::new().reset_fe(width));
        assert_eq!(records, [rec(20, 0x2A, 0x01, u32::from(width) * 2 + 1)]);
        assert_eq!(reader, after);
    }
}

#[test]
fn field_4_is_ignored_where_it_is_not_used() {
    for field4 in 0..16 {
        for field3 in [8, 9] {
            let records = read(Stream::new().slow(field3, field4));
            assert_eq!(records, [(0x20 + field3, 1, 0)]);
        }
        assert_eq!(
            read(Stream::new().slow(2, field4).number(5, 27)),
            [(0x22, 1, 5)]
        );
        assert_eq!(
            read(Stream::new().slow(10, field4).number(5, 4)),
            [(0x2A, 1, 11)]
        );
        assert_eq!(read(Stream::new().slow(7, field4)), [(0x2F, 0, 7)]);
    }
}

#[test]
fn bits_of_fields_do_not_enter_the_window() {
    // Field 5 full of LV1, and zeros after: nothing but its own record.
    let stream = Stream::new()
        .wr_register(1, 0b1110_1111_0111_1011)
        .zeros(10);
    assert_eq!(read(stream), [(0x20, 1, 0x0001_EF7B)]);
    // A window starts empty after each command.
    assert_eq!(
        read(Stream::new().wr_register(1, 3).pattern("0100")),
        [(0x20, 1, 0x0001_0003)]
    );
}

/// A window equal to a pattern acts only after the next bit.
#[test]
fn a_window_acts_after_its_bit() {
    for (window, bit, flags) in [
        (0b11101, "1", None),
        (0b11110, "1", Some(0x05)),
        (0b10110, "0", None),
    ] {
        let mut reader = Reader::running();
        reader.state.recogniser = Recogniser::Hunting { window };
        let records = reader.read(&stream(bit));
        assert_eq!(
            records.first().map(|record| record.flags),
            flags,
            "{window:05b}"
        );
    }
}

/// 'list full' is tested before each bit, whatever that bit would do.
#[test]
fn list_full() {
    let reader = Reader::running();
    for (words, first_free, count, taken, ending) in [
        (2, 0, 5, 5, Ending::Done),
        (2, 0, 6, 5, Ending::ListFull),
        (3, 1, 6, 5, Ending::ListFull),
        (3, 0, 6, 5, Ending::ListFull),
        (4, 0, 6, 6, Ending::Done),
        (1, 0, 6, 0, Ending::ListFull),
        (0, 0, 6, 0, Ending::ListFull),
        (2, 1, 6, 0, Ending::ListFull),
        (2, 2, 6, 0, Ending::ListFull),
        (2, 2, 0, 0, Ending::Done),
        (0, 0, 0, 0, Ending::Done),
    ] {
        let mut lent = reader.clone();
        let mut list = vec![0; words];
        let answer = take(
            lent.state,
            &stream("1110100000").bytes(),
            0,
            count,
            &mut lent.store,
            &mut lent.tray,
            &mut list,
            first_free,
        );
        assert_eq!(
            (answer.bits_taken, answer.ending),
            (taken, ending),
            "{words} {first_free}"
        );
        assert_eq!(answer.records_written, u64::from(taken > 0));
    }
}

#[test]
fn the_frame_part() {
    let tray: Vec<u8> = (0..10).collect();
    for (bits, bytes) in [
        (0, 0),
        (1, 1),
        (7, 1),
        (8, 1),
        (9, 2),
        (79, 10),
        (80, 10),
        (81, 0),
    ] {
        assert_eq!(frame_part(&tray, bits), &tray[..bytes], "{bits}");
    }
    assert_eq!(frame_part(&tray, u64::MAX), &[] as &[u8]);
    assert_eq!(frame_part(&[], 0), &[] as &[u8]);
    assert_eq!(frame_part(&[], 1), &[] as &[u8]);
    assert_eq!(frame_part(&[5; 8_192], 65_536), &[5; 8_192]);
}

/// The longest way back to an empty window takes the largest Field 5.
#[test]
fn the_largest_field_5() {
    let mut reader = Reader::opened();
    reader.state.registers[5] = 0xFFFF;
    reader.state.recogniser = Recogniser::Field3 {
        held: 0b01,
        received: 2,
    };
    let zeros = Stream::new().zeros(65_982);
    let bytes = zeros.bytes();
    assert_eq!(reader.read_part(&bytes, 0, 65_981, 9), []);
    let records = reader.read_part(&bytes, 65_981, 1, 9);
    assert_eq!(records, [rec(65_981, 0x24, 0x01, 0x0038_1FFF)]);
}

#[test]
fn the_last_cycle_has_a_record() {
    let (_, mut state) = open(Plan::DEFAULT, CLOCK_LIMIT - 5);
    state.run_mode = true;
    state.base_cycle = 0;
    let mut reader = Reader::new(state);
    let records = reader.read(&Stream::new().lv1());
    assert_eq!(records, [rec(CLOCK_LIMIT - 1, 0x01, 0x05, 0xFF)]);
    assert_eq!(records[0].words(), [0xFFFF_FFFF_FFFF_0105, 0xFF]);
    assert_eq!(reader.state.next_cycle, CLOCK_LIMIT);
}

/// Document 02, F-6: one call takes a mebibyte. One LV1 lies across the end
/// of document 01's longest input, one at the very end.
#[test]
fn a_mebibyte_in_one_call() {
    const OLD_BITS: usize = 8 * 65_536;
    const BITS: usize = 8 * 1_048_576;
    let stream = Stream::new().en_data_take();
    let across = stream.zeros(OLD_BITS - 2 - 17).lv1();
    let stream = across.zeros(BITS - 5 - (OLD_BITS + 3)).lv1();
    let bytes = stream.bytes();
    assert_eq!(bytes.len(), 1_048_576);
    let mut lent = Reader::opened();
    let mut list = [0; 8];
    let answer = take(
        lent.state,
        &bytes,
        0,
        BITS as u64,
        &mut lent.store,
        &mut lent.tray,
        &mut list,
        0,
    );
    let taken = (answer.bits_taken, answer.records_written, answer.ending);
    assert_eq!(taken, (BITS as u64, 3, Ending::Done));
    let records = [
        rec(16, 0x28, 0x01, 0),
        rec(OLD_BITS as u64 + 2, 0x01, 0x05, 0x0002),
        rec(BITS as u64 - 1, 0x01, 0x05, 0x01FF),
    ];
    assert_eq!(list[..6], records.map(|record| record.words()).concat());
    assert_eq!(answer.state.next_cycle, BITS as u64);
}
