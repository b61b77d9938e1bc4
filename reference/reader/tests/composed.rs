//! The composer (document 02, F-2): every command by hand, every refusal, and
//! random lists of orders that are read back.

mod common;

use cases::generate::Addresses;
use cases::orders::{at, lent, random_orders, stream_of, Flaw, Lent, Order, Ordered};
use cases::{code, Random, Stream};
use common::Reader;
use reader::compose::fits;
use reader::record::flag;
use reader::{accept, compose, Composer, NotComposed, Plan, Record};
use std::collections::BTreeMap;

/// Six words: kind, zeros, address, value, frame, bits.
type Words = [u64; 6];

/// Large enough for all that is composed here by hand.
const ROOM: usize = 20_000;

fn composed(orders: &[Words], frames: &[u8]) -> Result<Stream, NotComposed> {
    composed_by(Plan::DEFAULT, orders, frames)
}

/// The stream as bits, once what stands behind it is found untouched.
fn composed_by(plan: Plan, orders: &[Words], frames: &[u8]) -> Result<Stream, NotComposed> {
    let mut output = vec![0xA5; ROOM];
    let answer = compose(plan, &orders.concat(), frames, &mut output);
    let bits = answer.unwrap_or(0) as usize;
    let bytes = bits.div_ceil(8);
    assert!(output[bytes..].iter().all(|&byte| byte == 0xA5));
    let bit = |place: usize| output[place / 8] >> (7 - place % 8) & 1 == 1;
    // The last byte is filled up with zeros.
    assert!(!(bits..8 * bytes).any(bit));
    answer.map(|_| Stream {
        bits: (0..bits).map(bit).collect(),
    })
}

fn kind_alone(kind: u64) -> Words {
    [kind, 0, 0, 0, 0, 0]
}

const LV1: Words = [0x01, 0, 0, 0, 0, 0];
const BCR: Words = [0x11, 0, 0, 0, 0, 0];

/// WrRegister to CNT's address in the default plan.
fn wr_cnt(value: u64) -> Words {
    [0x20, 0, 5, value, 0, 0]
}

/// A frame of so many bits from byte 0 on.
fn frame(kind: u64, bits: u64) -> Words {
    [kind, 0, 0, 0, 0, bits]
}

fn wrong(order: u64) -> Result<Stream, NotComposed> {
    Err(NotComposed::WrongOrder(order))
}

fn too_few_zeros(order: u64) -> Result<Stream, NotComposed> {
    Err(NotComposed::TooFewZeros(order))
}

#[test]
fn every_command_by_hand() {
    for (order, bits) in [
        (LV1, "11101"),
        (BCR, "10110 0001"),
        (kind_alone(0x12), "10110 0010"),
        (kind_alone(0x14), "10110 0100"),
        (kind_alone(0x18), "10110 1000"),
        (
            [0x20, 0, 0xA, 0x1234, 0, 0],
            "10110 1011 0000 1010 0001 0010 0011 0100",
        ),
        (
            [0x21, 0, 0xA, 0, 0, 0],
            "10110 1011 0001 1010 0000 0000 0000 0000",
        ),
        (
            [0x22, 0, 0, 0x5AB_CDEF, 0, 0],
            "10110 1011 0010 0000 101 1010 1011 1100 1101 1110 1111",
        ),
        (
            [0x23, 0, 0x6, 0, 0, 0],
            "10110 1011 0011 0110 000 0000 0000 0000 0000 0000 0000",
        ),
        (frame(0x24, 0), "10110 1011 0100 0000"),
        (frame(0x25, 0), "10110 1011 0101 0000"),
        (frame(0x26, 0), "10110 1011 0110 0000"),
        (kind_alone(0x28), "10110 1011 1000 0000"),
        (kind_alone(0x29), "10110 1011 1001 0000"),
        ([0x2A, 0, 0, 0x9, 0, 0], "10110 1011 1010 0000 1001"),
    ] {
        let stream = Stream::new().pattern(bits);
        assert_eq!(composed(&[order], &[]), Ok(stream), "{order:X?}");
        // The zeros ahead, and another command next to it.
        let mut later = order;
        later[at::ZEROS] = 3;
        let both = Stream::new().pattern("11101 000").pattern(bits);
        assert_eq!(composed(&[LV1, later], &[]), Ok(both), "{order:X?}");
    }
}

#[test]
fn frames_by_hand() {
    // Nine data bits, 010111001, and bits past them that are not looked at.
    let frames = [0xFF, 0x5C, 0xFF];
    let from = |kind, bits| [kind, 0, 0, 0, 1, bits];
    let cnt = "10110 1011 0000 0101 0000000001001000";
    let cycles = "00000000 11111111 00000000 11111111 11111111 11111111 00000000 00000000 11111111";
    for (kind, field3) in [(0x24, "0100"), (0x25, "0101")] {
        let stream = Stream::new().pattern(cnt).pattern("10110 1011");
        let stream = stream.pattern(field3).pattern("0000").pattern(cycles);
        let orders = [wr_cnt(9 << 3), from(kind, 9)];
        assert_eq!(composed(&orders, &frames), Ok(stream));
    }
    // Two bytes, a bit a cycle.
    let cnt = "10110 1011 0000 0101 0000000000000010";
    let stream = Stream::new().pattern(cnt).pattern("10110 1011 0110 0000");
    let stream = stream.pattern("01011100 11111111");
    let orders = [wr_cnt(2), from(0x26, 16)];
    assert_eq!(composed(&orders, &frames), Ok(stream));
    // Eight control bits and one data bit.
    let orders = [wr_cnt(1 << 3 | 1), from(0x24, 9), LV1];
    let stream = composed(&orders, &frames).expect("it is fit");
    assert_eq!(stream.bits.len(), 33 + 17 + 72 + 5);
}

/// By document 01 and the chip paper's note 3, where CNT<15:13> is a misprint.
#[test]
fn the_count_of_frame_bits_goes_by_cnt() {
    let frames = vec![0x5A; 8_191];
    for (cnt, front_end, receiver) in [
        (0x0000, 0, 0),
        (0x0001, 8, 8),
        (0x0007, 56, 56),
        (0x0008, 1, 64),
        (0x000F, 57, 120),
        (0x0FF8, 511, 4_088 * 8),
        (0x1FFF, 1_023 + 56, 65_528),
        (0x2000, 1_024, 0),
        (0xE000, 7_168, 0),
        (0xE001, 7_168 + 8, 8),
        (0xFFF8, 8_191, 8_184 * 8),
        (0xFFFF, 8_247, 65_528),
    ] {
        for (kind, count) in [(0x24, front_end), (0x25, front_end), (0x26, receiver)] {
            let sent = |bits| composed(&[wr_cnt(cnt), frame(kind, bits)], &frames);
            let cycles = if kind == 0x26 { count } else { 8 * count };
            let stream = sent(count).expect("it is fit");
            assert_eq!(stream.bits.len() as u64, 33 + 17 + cycles, "{cnt:04X}");
            for other in [
                count + 1,
                count.wrapping_sub(1),
                count + 8,
                count + (1 << 32),
            ] {
                assert_eq!(sent(other), wrong(1), "{cnt:04X}, {other} bits");
            }
        }
    }
}

/// The first and last numbers of each used field, and ones that are too large,
/// some of them only beyond the bits of a smaller number.
#[test]
fn each_used_field_at_and_past_its_size() {
    let fields = [
        (0x20, at::ADDRESS, 4),
        (0x21, at::ADDRESS, 4),
        (0x23, at::ADDRESS, 4),
        (0x20, at::VALUE, 16),
        (0x22, at::VALUE, 27),
        (0x2A, at::VALUE, 4),
    ];
    for (kind, place, bits) in fields {
        let with = |number| {
            let mut order = kind_alone(kind);
            order[place] = number;
            composed(&[LV1, order], &[])
        };
        for number in [0, 1, (1 << bits) - 1] {
            assert!(with(number).is_ok(), "{kind:X}, {number:X}");
        }
        for high in bits..64 {
            assert_eq!(with(1 << high), wrong(1), "{kind:X}, {high}");
        }
        for number in [u64::MAX, 1 << bits | 1, 1 << 63 | 5] {
            assert_eq!(with(number), wrong(1), "{kind:X}, {number:X}");
        }
    }
}

#[test]
fn what_an_order_does_not_use_is_not_looked_at() {
    let used: [(u64, &[usize]); 15] = [
        (0x01, &[]),
        (0x11, &[]),
        (0x12, &[]),
        (0x14, &[]),
        (0x18, &[]),
        (0x20, &[at::ADDRESS, at::VALUE]),
        (0x21, &[at::ADDRESS]),
        (0x22, &[at::VALUE]),
        (0x23, &[at::ADDRESS]),
        (0x24, &[at::BITS]),
        (0x25, &[at::BITS]),
        (0x26, &[at::BITS]),
        (0x28, &[]),
        (0x29, &[]),
        (0x2A, &[at::VALUE]),
    ];
    for (kind, used) in used {
        let plain = composed(&[kind_alone(kind)], &[]);
        for place in [at::ADDRESS, at::VALUE, at::FRAME, at::BITS] {
            let looked_at = used.contains(&place);
            for number in [1, 15, 16, 1 << 40, u64::MAX] {
                let mut order = kind_alone(kind);
                order[place] = number;
                let same = composed(&[order], &[]) == plain;
                assert_eq!(same, !looked_at, "{kind:X}, {place}, {number}");
            }
        }
    }
}

#[test]
fn every_other_kind_is_unknown() {
    let known = [
        0x01, 0x11, 0x12, 0x14, 0x18, 0x20, 0x21, 0x22, 0x23, 0x24, 0x25, 0x26, 0x28, 0x29, 0x2A,
    ];
    for kind in 0..=0x1FF {
        let fit = composed(&[LV1, kind_alone(kind)], &[]).is_ok();
        assert_eq!(fit, known.contains(&kind), "{kind:X}");
    }
    for kind in known {
        for high in 8..64 {
            assert_eq!(composed(&[kind_alone(kind | 1 << high)], &[]), wrong(0));
        }
    }
}

/// Through writes, other registers, GlobalResetMCC and a missing register.
#[test]
fn cnt_as_the_orders_write_it() {
    let frames = [0x5A; 4];
    let wr = |address, value| [0x20, 0, address, value, 0, 0];
    let bytes = |ahead: &[Words]| -> Vec<u64> {
        let fit = |count: &u64| {
            let last = frame(0x26, 8 * count);
            composed(&[ahead, &[last]].concat(), &frames).is_ok()
        };
        (0..=4).filter(fit).collect()
    };
    assert_eq!(bytes(&[]), [0]);
    assert_eq!(bytes(&[wr(5, 3)]), [3]);
    assert_eq!(bytes(&[wr(5, 3), wr(5, 1)]), [1]);
    assert_eq!(bytes(&[wr(5, 3), wr(5, 0)]), [0]);
    for other in (0..16).filter(|&address| address != 5) {
        // From 11 on the registers are missing.
        assert_eq!(bytes(&[wr(5, 3), wr(other, 2)]), [3], "{other}");
    }
    assert_eq!(bytes(&[wr(5, 3), kind_alone(0x29)]), [0]);
    assert_eq!(bytes(&[wr(5, 3), kind_alone(0x29), wr(5, 2)]), [2]);
    // What leaves it alone.
    for kind in [0x01, 0x14, 0x18, 0x28, 0x2A] {
        assert_eq!(bytes(&[wr(5, 3), kind_alone(kind)]), [3], "{kind:X}");
    }
    for order in [
        [0x21, 0, 5, 1, 0, 0],
        [0x22, 0, 5, 1, 0, 0],
        [0x23, 0, 5, 1, 0, 0],
    ] {
        assert_eq!(bytes(&[wr(5, 3), order]), [3], "{order:X?}");
    }
    let frame_between = [wr(5, 3), frame(0x26, 24), wr(5, 1), frame(0x24, 8)];
    assert_eq!(bytes(&frame_between), [1]);
    // By another plan CNT is elsewhere.
    let plan = Plan {
        mask: 0x8006,
        csr: 1,
        feen: 15,
        cnt: 2,
    };
    let at_2 = [wr(2, 1), wr(5, 3), frame(0x26, 8)];
    assert!(composed_by(plan, &at_2, &frames).is_ok());
    assert_eq!(composed(&at_2, &frames), wrong(2));
}

/// All kinds that can be ordered, with no more than the kind.
const KINDS: [u64; 15] = [
    0x01, 0x11, 0x12, 0x14, 0x18, 0x20, 0x21, 0x22, 0x23, 0x24, 0x25, 0x26, 0x28, 0x29, 0x2A,
];

/// After BCR 2, after ECR 1, if anything but an LV1 follows; after SYNC 4, if
/// an LV1 follows; otherwise 0.
#[test]
fn the_timing_table_for_every_pair() {
    let mut asking = 0;
    for one in KINDS {
        for other in KINDS {
            let asked = match (one, other) {
                (0x11, 0x01) | (0x12, 0x01) => 0,
                (0x11, _) => 2,
                (0x12, _) => 1,
                (0x18, 0x01) => 4,
                _ => 0,
            };
            asking += u32::from(asked > 0);
            let after = |zeros| {
                let mut later = kind_alone(other);
                later[at::ZEROS] = zeros;
                composed(&[kind_alone(one), later], &[])
            };
            for zeros in [asked, asked + 1, asked + 9] {
                assert!(after(zeros).is_ok(), "{one:X} {zeros} {other:X}");
            }
            for zeros in 0..asked {
                assert_eq!(after(zeros), too_few_zeros(1), "{one:X} {zeros} {other:X}");
            }
            // Nothing is asked ahead of the first, and a Slow asks none after
            // itself, so that what stood ahead of it no longer counts.
            let slow = [kind_alone(one), [0x28, 2, 0, 0, 0, 0], kind_alone(other)];
            assert!(composed(&slow, &[]).is_ok(), "{one:X} {other:X}");
        }
    }
    assert_eq!(asking, 14 + 14 + 1);
}

#[test]
fn which_refusal_goes_first() {
    let unfit = Plan {
        cnt: 2,
        ..Plan::DEFAULT
    };
    let unknown = kind_alone(0x1F);
    let far = [0x01, u64::MAX, 0, 0, 0, 0];
    assert_eq!(composed_by(unfit, &[], &[]), Err(NotComposed::WrongPlan));
    assert_eq!(
        composed_by(unfit, &[unknown], &[]),
        Err(NotComposed::WrongPlan)
    );
    assert_eq!(composed_by(unfit, &[far], &[]), Err(NotComposed::WrongPlan));
    // At one order 9 goes ahead of 10; of two orders the first does.
    assert_eq!(composed(&[BCR, unknown], &[]), wrong(1));
    assert_eq!(composed(&[BCR, frame(0x26, 8)], &[0]), wrong(1));
    assert_eq!(composed(&[BCR, BCR, unknown], &[]), too_few_zeros(1));
    assert_eq!(composed(&[unknown, BCR, BCR], &[]), wrong(0));
    // 11 comes last of all.
    assert_eq!(composed(&[far], &[]), Err(NotComposed::TooLong));
    assert_eq!(composed(&[far, far, unknown], &[]), wrong(2));
    assert_eq!(composed(&[far, BCR, BCR], &[]), too_few_zeros(2));
    // Frames that no output would hold are still looked at.
    assert_eq!(composed(&[far, frame(0x26, 8)], &[0]), wrong(1));
}

#[test]
fn plans_that_do_not_open() {
    let plan = |mask, csr, feen, cnt| Plan {
        mask,
        csr,
        feen,
        cnt,
    };
    for (plan, fit) in [
        (plan(0x07FF, 0, 2, 5), true),
        (plan(0xE000, 15, 14, 13), true),
        (plan(0x0007, 2, 1, 0), true),
        (plan(0x07FF, 0, 0, 5), false),
        (plan(0x07FF, 0, 2, 0), false),
        (plan(0x07FF, 5, 2, 5), false),
        (plan(0x07FF, 0, 2, 11), false),
        (plan(0x07DF, 0, 2, 5), false),
        (plan(0xFFFF, 16, 2, 5), false),
        (plan(0xFFFF, 0, 255, 5), false),
        (plan(0x0000, 0, 1, 2), false),
    ] {
        let refused = composed_by(plan, &[LV1], &[]) == Err(NotComposed::WrongPlan);
        assert_eq!(refused, !fit, "{plan:?}");
    }
}

/// Frames at the end of what is lent, and past it; one of no bits fits wherever
/// it is said to stand.
#[test]
fn where_a_frame_stands() {
    let frames = [0xFF, 0x00, 0x5A, 0xC3];
    let sent = |first, bits| {
        let order = [0x24, 0, 0, 0, first, bits];
        composed(&[wr_cnt(bits << 3), order], &frames)
    };
    for (first, bits, fit) in [
        (0, 32, true),
        (0, 33, false),
        (3, 8, true),
        (3, 9, false),
        (3, 7, true),
        (4, 0, true),
        (4, 1, false),
        (5, 0, true),
        (5, 1, false),
        (u64::MAX, 0, true),
        (u64::MAX, 1, false),
        (u64::MAX, 8, false),
        (u64::MAX - 1, 16, false),
        (1 << 61, 8, false),
    ] {
        let composed = sent(first, bits);
        assert_eq!(composed.is_ok(), fit, "{bits} bits at {first}");
        assert!(fit || composed == wrong(1));
    }
    let taken = sent(2, 12).expect("it is fit").bits[50..].to_vec();
    let groups: Vec<bool> = taken.chunks(8).map(|group| group[0]).collect();
    let expected = Stream::new().pattern("01011010 1100").bits;
    assert_eq!(groups, expected);
}

#[test]
fn an_output_that_is_just_filled_or_a_byte_short() {
    let mut random = Random::new(0xF2_01);
    for count in 1..40 {
        let orders = random_orders(&mut random, Addresses::DEFAULT, count);
        let Lent { orders, frames } = lent(&orders, &mut random);
        let mut room = vec![0; ROOM];
        let bits = match compose(Plan::DEFAULT, &orders, &frames, &mut room) {
            Ok(bits) => bits,
            Err(NotComposed::TooLong) => continue,
            Err(why) => panic!("{why:?}"),
        };
        let needed = bits.div_ceil(8) as usize;
        for length in [needed, needed + 1, needed + 77] {
            let mut output: Vec<u8> = (0..length).map(|_| random.word() as u8).collect();
            let before = output.clone();
            assert_eq!(
                compose(Plan::DEFAULT, &orders, &frames, &mut output),
                Ok(bits)
            );
            assert_eq!(output[..needed], room[..needed]);
            assert_eq!(output[needed..], before[needed..]);
        }
        for length in [needed - 1, needed / 2, 0] {
            let mut output = vec![0x5A; length];
            let answer = compose(Plan::DEFAULT, &orders, &frames, &mut output);
            assert_eq!(answer, Err(NotComposed::TooLong));
            assert!(output.iter().all(|&byte| byte == 0x5A));
        }
    }
}

#[test]
fn no_orders() {
    assert_eq!(compose(Plan::DEFAULT, &[], &[], &mut []), Ok(0));
    let mut output = [0x5A; 3];
    assert_eq!(compose(Plan::DEFAULT, &[], &[1, 2], &mut output), Ok(0));
    assert_eq!(output, [0x5A; 3]);
}

/// Fewer than six words are no order, whatever they are.
#[test]
fn an_incomplete_last_order() {
    let orders = [LV1, LV1, kind_alone(0x28)].concat();
    for length in 0..=orders.len() {
        let mut output = [0x5A; 10];
        let answer = compose(Plan::DEFAULT, &orders[..length], &[], &mut output);
        let expected = match length {
            0 => Ok(0),
            6 => Ok(5),
            12 => Ok(10),
            18 => Ok(27),
            _ => Err(NotComposed::WrongOrder(length as u64 / 6)),
        };
        assert_eq!(answer, expected, "{length} words");
        assert!(answer.is_ok() || output == [0x5A; 10]);
    }
    // The walk must get there.
    let ahead = [BCR, BCR].concat();
    let cut = [&ahead[..], &[0x01, 0]].concat();
    let answer = compose(Plan::DEFAULT, &cut, &[], &mut []);
    assert_eq!(answer, Err(NotComposed::TooFewZeros(1)));
}

/// Zeros near 2^64: sums do not wrap, and all orders are still looked at.
#[test]
fn zeros_near_two_to_the_64() {
    let far = |zeros| [0x01, zeros, 0, 0, 0, 0];
    for zeros in [
        u64::MAX,
        u64::MAX - 4,
        u64::MAX - 5,
        1 << 63,
        1 << 61,
        1 << 48,
        160_000,
    ] {
        for orders in [
            vec![far(zeros)],
            vec![far(zeros), far(zeros)],
            vec![LV1, far(zeros), LV1],
        ] {
            assert_eq!(composed(&orders, &[]), Err(NotComposed::TooLong), "{zeros}");
        }
    }
    // 2^64 and a few more bits wrap to a few.
    let orders = [far(u64::MAX), far(2)];
    assert_eq!(composed(&orders, &[]), Err(NotComposed::TooLong));
    let mut composer = Composer::start(Plan::DEFAULT, ROOM);
    for _ in 0..1_000 {
        let order = reader::Order::from_words(&far(u64::MAX), &[]).unwrap();
        assert_eq!(composer.add(&order), Ok(()));
    }
    assert_eq!(composer.bits(), 1_000 * (u128::from(u64::MAX) + 5));
    assert_eq!(composer.stream(), None);
}

/// Exactly 2^48 bits are allowed, in an output that holds them.
#[test]
fn two_to_the_48_bits() {
    let most = 1_u128 << 48;
    assert!(fits(most, 1 << 45) && !fits(most + 1, 1 << 46));
    assert!(!fits(most, (1 << 45) - 1) && fits(most - 8, (1 << 45) - 1));
    assert!(fits(most, usize::MAX) && !fits(u128::MAX, usize::MAX));
    assert!(fits(0, 0) && !fits(1, 0) && fits(8, 1) && !fits(9, 1));
    let order = reader::Order::from_words(&[0x01, (1 << 48) - 5, 0, 0, 0, 0], &[]).unwrap();
    let mut composer = Composer::start(Plan::DEFAULT, 0);
    assert_eq!(composer.add(&order), Ok(()));
    assert_eq!(composer.bits(), most);
}

/// Any mask with three different addresses in it.
fn random_plan(random: &mut Random) -> Plan {
    let mut addresses: Vec<u8> = (0..16).collect();
    let mut any = || addresses.swap_remove(random.below(addresses.len() as u64) as usize);
    let [csr, feen, cnt] = [any(), any(), any()];
    let mask = random.word() as u16 | 1 << csr | 1 << feen | 1 << cnt;
    Plan {
        mask,
        csr,
        feen,
        cnt,
    }
}

fn addresses(plan: Plan) -> Addresses {
    let Plan { csr, feen, cnt, .. } = plan;
    Addresses { csr, feen, cnt }
}

/// Takes all bits in calls of random counts with lists of random room.
fn read_back(plan: Plan, bytes: &[u8], bits: u64, random: &mut Random) -> (Vec<Record>, Reader) {
    let mut reader = Reader::opened_by(plan);
    let mut records = Vec::new();
    let mut first = 0;
    while first < bits {
        let most = [40, 3_000, 200_000][random.below(3) as usize];
        let count = (1 + random.below(most)).min(bits - first);
        let room = 1 + random.below(6) as usize;
        records.extend(reader.read_part(bytes, first, count, room));
        first += count;
    }
    (records, reader)
}

/// Checks a record against its order: command, cycle, used fields, and flags.
/// `cnt` is what the orders ahead have written.
fn check_record(record: &Record, order: &Order, last: u64, plan: Plan, cnt: u16) {
    assert_eq!((record.kind, record.time), (order.command.kind(), last));
    let not = flag::FLIP | flag::UNSTEADY | flag::TOO_CLOSE;
    assert_eq!(record.flags & not, 0, "{record:?}");
    let value = record.value;
    let missing = |address: u8| plan.mask >> address & 1 == 0;
    let is_missing = match order.command {
        Ordered::WrRegister(address, _) | Ordered::RdRegister(address) => missing(address),
        _ => false,
    };
    assert_eq!(record.flags & flag::MISSING != 0, is_missing, "{record:?}");
    match order.command {
        // Its position; the counters are not the order's.
        Ordered::Lv1 => assert_eq!(value >> 16, 0),
        Ordered::WrRegister(address, bits) => {
            assert_eq!(value, u32::from(address) << 16 | u32::from(bits));
        }
        Ordered::RdRegister(address) => assert_eq!(value >> 16, u32::from(address)),
        Ordered::WrFifo(word) => assert_eq!(value, word),
        Ordered::RdFifo(fifo) => assert_eq!(value >> 27, u32::from(fifo)),
        Ordered::FrontEnd(..) => {
            let (data, control) = (cnt >> 3, (cnt & 7) * 8);
            assert_eq!(value, u32::from(control) << 16 | u32::from(data));
        }
        Ordered::WrReceiver(ref frame) => assert_eq!(value as usize, frame.len()),
        Ordered::ResetFe(sync_width) => assert_eq!(value, u32::from(sync_width) * 2 + 1),
        Ordered::Fast(_) | Ordered::EnDataTake | Ordered::ResetMcc => assert_eq!(value, 0),
    }
}

/// One record an order, at its cycle, and its frame's bits in the tray.
fn check_read_back(orders: &[Order], plan: Plan, records: &[Record], reader: &Reader) {
    assert_eq!(records.len(), orders.len());
    let mut frames = reader.frames.iter();
    let mut cnt = 0;
    let mut next = 0;
    for (order, record) in orders.iter().zip(records) {
        let command = order.command.add_to(Stream::new());
        next += order.zeros + command.bits.len() as u64;
        check_record(record, order, next - 1, plan, cnt);
        if let Some(frame) = order.command.frame() {
            let packed = Stream::new().raw(frame).bytes();
            assert_eq!(frames.next(), Some(&packed));
        }
        match order.command {
            Ordered::WrRegister(address, value) if address == plan.cnt => cnt = value,
            Ordered::ResetMcc => cnt = 0,
            _ => {}
        }
    }
    assert_eq!(frames.next(), None);
}

const LISTS: u64 = 20_000;

#[test]
fn random_lists_are_read_back() {
    let (mut orders_sent, mut frames_sent, mut longest) = (0, 0, 0);
    let mut kinds = BTreeMap::new();
    for number in 0..LISTS {
        let mut random = Random::new(0xF2_0000_0000 + number);
        let plan = random_plan(&mut random);
        let count = random.below(26) as usize;
        let orders = random_orders(&mut random, addresses(plan), count);
        let Lent {
            orders: words,
            frames,
        } = lent(&orders, &mut random);
        let expected = stream_of(&orders);
        let mut output = vec![0xFF; expected.bytes().len()];
        let bits = compose(plan, &words, &frames, &mut output);
        assert_eq!(bits, Ok(expected.bits.len() as u64), "list {number}");
        assert_eq!(output, expected.bytes(), "list {number}");
        let (records, reader) = read_back(plan, &output, expected.bits.len() as u64, &mut random);
        check_read_back(&orders, plan, &records, &reader);
        orders_sent += orders.len();
        frames_sent += reader.frames.iter().filter(|f| !f.is_empty()).count();
        longest = longest.max(reader.frames.iter().map(Vec::len).max().unwrap_or(0));
        for order in &orders {
            *kinds.entry(order.command.kind()).or_insert(0) += 1;
        }
    }
    assert!(
        orders_sent > 200_000 && frames_sent > 20_000,
        "{orders_sent} {frames_sent}"
    );
    // A WrReceiver of CNT FFFF.
    assert_eq!(longest, 8_191);
    assert_eq!(kinds.len(), KINDS.len());
    assert!(kinds.values().all(|&count| count > 2_000), "{kinds:?}");
}

/// Each command with CNT as large as it can be, with 0, and with E000.
#[test]
fn frames_of_each_length_are_read_back() {
    let mut random = Random::new(0xF2_02);
    for cnt in [0xFFFF, 0, 0xE000, 1, 8, 0x1FFF, 0xFFF8] {
        let mut frame = |count| (0..count).map(|_| random.bit()).collect::<Vec<bool>>();
        let commands = [
            Ordered::WrRegister(5, cnt),
            Ordered::FrontEnd(code::WR_FRONT_END, frame(code::front_end_bits(cnt))),
            Ordered::WrReceiver(frame(code::receiver_bits(cnt))),
            Ordered::FrontEnd(code::RD_FRONT_END, frame(code::front_end_bits(cnt))),
            Ordered::Lv1,
        ];
        let orders = commands.map(|command| Order { zeros: 0, command });
        let Lent {
            orders: words,
            frames,
        } = lent(&orders, &mut random);
        let mut output = vec![0; 30_000];
        let bits = compose(Plan::DEFAULT, &words, &frames, &mut output).expect("it is fit");
        let (records, reader) = read_back(Plan::DEFAULT, &output, bits, &mut random);
        check_read_back(&orders, Plan::DEFAULT, &records, &reader);
    }
}

/// The zeros that fill up the last byte add no record.
#[test]
fn filling_zeros_add_no_record() {
    let mut random = Random::new(0xF2_03);
    for _ in 0..200 {
        let orders = random_orders(&mut random, Addresses::DEFAULT, 8);
        let bytes = stream_of(&orders).bytes();
        let bits = 8 * bytes.len() as u64;
        let (records, reader) = read_back(Plan::DEFAULT, &bytes, bits, &mut random);
        check_read_back(&orders, Plan::DEFAULT, &records, &reader);
    }
}

/// Lists of LV1 and Fasts alone are what F-8 accepts.
#[test]
fn triggers_and_fasts_are_accepted() {
    let mut random = Random::new(0xF2_04);
    for number in 0..2_000 {
        let orders = random_orders(&mut random, Addresses::DEFAULT, 60);
        let is_fast = |order: &Order| matches!(order.command, Ordered::Lv1 | Ordered::Fast(_));
        let mut orders: Vec<Order> = orders.into_iter().filter(is_fast).collect();
        for place in 1..orders.len() {
            let asked = orders[place - 1]
                .command
                .zeros_ahead_of(&orders[place].command);
            orders[place].zeros = asked + random.below(2) * random.below(3);
        }
        let Lent {
            orders: words,
            frames,
        } = lent(&orders, &mut random);
        let mut output = vec![0; 1_000];
        let bits = compose(Plan::DEFAULT, &words, &frames, &mut output).expect("it is fit");
        assert_eq!(accept(&output, 0, bits), Ok(()), "list {number}");
        assert_eq!(accept(&output, 0, 8_000), Ok(()), "list {number}");
    }
}

/// Each flaw at the order that has it, or ahead of it at none; nothing is
/// written.
#[test]
fn flaws_are_refused() {
    let mut counts = BTreeMap::new();
    for number in 0..9_000_u64 {
        let mut random = Random::new(0xF2_0001_0000 + number);
        let flaw = Flaw::ALL[(number % 9) as usize];
        let orders = random_orders(&mut random, Addresses::DEFAULT, 12);
        let clean = lent(&orders, &mut random);
        let mut flawed = clean.clone();
        flaw.put_into(&mut flawed, &orders, &mut random);
        let differs = |place: &usize| flawed.orders.get(*place) != clean.orders.get(*place);
        let first = (0..clean.orders.len()).find(differs);
        let mut output = vec![0xA5; 40_000];
        let answer = compose(Plan::DEFAULT, &flawed.orders, &flawed.frames, &mut output);
        let order = first.map(|place| place as u64 / 6);
        match (flaw, order) {
            (Flaw::Nothing, _) | (_, None) => assert!(answer.is_ok(), "{flaw:?}, {answer:?}"),
            (Flaw::Zeros, Some(order)) => assert_eq!(answer, Err(NotComposed::TooFewZeros(order))),
            (Flaw::ManyZeros, _) => assert_eq!(answer, Err(NotComposed::TooLong)),
            (_, Some(order)) => assert_eq!(answer, Err(NotComposed::WrongOrder(order)), "{flaw:?}"),
        }
        if answer.is_err() {
            assert!(output.iter().all(|&byte| byte == 0xA5));
        }
        *counts.entry((flaw as u8, answer.is_err())).or_insert(0) += 1;
    }
    for flaw in 1..9 {
        let refused = counts.get(&(flaw, true)).copied().unwrap_or(0);
        assert!(refused > 200, "{flaw}: {refused}");
    }
}

#[test]
fn numbers_of_the_refusals() {
    for (why, number, order) in [
        (NotComposed::WrongPlan, 1, 0),
        (NotComposed::WrongOrder(7), 9, 7),
        (NotComposed::TooFewZeros(8), 10, 8),
        (NotComposed::TooLong, 11, 0),
    ] {
        assert_eq!((why.number(), why.order()), (number, order));
    }
}
