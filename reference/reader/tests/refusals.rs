//! The refusal table of "A taking call": each number just inside and just
//! outside, the order of numbers, and that a refusal changes nothing. Number
//! 5 has the limit of document 02, F-6.

mod common;

use cases::Stream;
use common::{Reader, PLAN_007F};
use reader::limits::CLOCK_LIMIT;
use reader::{hex_line, open, take, Ending, Plan, State};

const DEFAULT: Plan = Plan::DEFAULT;

/// The longest input, in bytes: by document 01, and by document 02, F-6.
const OLD_LIMIT: usize = 65_536;
const LIMIT: usize = 1_048_576;

#[test]
fn number_1() {
    let bad = [
        Plan { mask: 0, ..DEFAULT },
        Plan { csr: 11, ..DEFAULT },
        Plan {
            feen: 11,
            ..DEFAULT
        },
        Plan { cnt: 11, ..DEFAULT },
        Plan {
            csr: 7,
            ..PLAN_007F
        },
        Plan {
            feen: 7,
            ..PLAN_007F
        },
        Plan {
            cnt: 7,
            ..PLAN_007F
        },
        Plan {
            cnt: 10,
            ..PLAN_007F
        },
        Plan { csr: 2, ..DEFAULT },
        Plan { csr: 5, ..DEFAULT },
        Plan { feen: 5, ..DEFAULT },
        Plan {
            csr: 16,
            mask: 0xFFFF,
            ..DEFAULT
        },
        Plan {
            feen: 16,
            mask: 0xFFFF,
            ..DEFAULT
        },
        Plan {
            cnt: 255,
            mask: 0xFFFF,
            ..DEFAULT
        },
        Plan {
            mask: 0x007E,
            ..DEFAULT
        },
        Plan {
            mask: 0x007B,
            ..DEFAULT
        },
        Plan {
            mask: 0x005F,
            ..DEFAULT
        },
        Plan {
            mask: 0x07FE,
            ..DEFAULT
        },
        Plan {
            mask: 0x07FB,
            ..DEFAULT
        },
        Plan {
            mask: 0x07DF,
            ..DEFAULT
        },
    ];
    for plan in bad {
        for cycle in [0, 77, CLOCK_LIMIT, u64::MAX] {
            assert_eq!(open(plan, cycle), (Some(1), State::start(DEFAULT, 0)));
        }
    }
    let good = [
        Plan {
            mask: 0x0025,
            ..DEFAULT
        },
        Plan {
            csr: 15,
            feen: 0,
            cnt: 14,
            mask: 0xC001,
        },
        PLAN_007F,
        DEFAULT,
        Plan {
            csr: 7,
            feen: 8,
            cnt: 10,
            ..DEFAULT
        },
    ];
    for plan in good {
        let (number, state) = open(plan, 77);
        assert_eq!((number, &state), (None, &State::start(plan, 77)));
        assert_eq!(
            (state.next_cycle, state.base_cycle, state.plan),
            (77, 77, plan)
        );
        assert!(!state.run_mode);
    }
}

#[test]
fn number_2() {
    let last = CLOCK_LIMIT - 1;
    assert_eq!(open(DEFAULT, last), (None, State::start(DEFAULT, last)));
    for cycle in [CLOCK_LIMIT, CLOCK_LIMIT + 1, u64::MAX] {
        assert_eq!(open(DEFAULT, cycle), (Some(2), State::start(DEFAULT, 0)));
    }
    // The default start state at cycle 0, whatever was asked.
    let other = Plan {
        mask: 0xFFFF,
        ..DEFAULT
    };
    for plan in [other, PLAN_007F] {
        assert_eq!(open(plan, CLOCK_LIMIT), (Some(2), State::start(DEFAULT, 0)));
    }
}

/// A call's arguments, so that a test can change them one by one.
#[derive(Clone)]
struct Call {
    state: State,
    input: Vec<u8>,
    first_bit: u64,
    count: u64,
    store: Vec<u32>,
    tray: Vec<u8>,
    list: Vec<u64>,
    first_free: u64,
}

impl Call {
    /// One LV1 in RunMode, with traces in every buffer.
    fn good() -> Call {
        let reader = Reader::running();
        Call {
            state: reader.state,
            input: Stream::new().lv1().bytes(),
            first_bit: 0,
            count: 8,
            store: vec![0xABCD_EF01; 2_048],
            tray: vec![0x5A; 8_192],
            list: vec![u64::MAX; 6],
            first_free: 1,
        }
    }

    /// The ending; a refusal must change nothing at all.
    fn ending(&self) -> Ending {
        let mut lent = self.clone();
        let answer = take(
            lent.state.clone(),
            &lent.input,
            lent.first_bit,
            lent.count,
            &mut lent.store,
            &mut lent.tray,
            &mut lent.list,
            lent.first_free,
        );
        if let Ending::Refused(_) = answer.ending {
            assert_eq!(answer.state, self.state);
            assert_eq!((answer.bits_taken, answer.records_written), (0, 0));
            assert_eq!(lent.store, self.store);
            assert_eq!(lent.tray, self.tray);
            assert_eq!(lent.list, self.list);
        }
        answer.ending
    }

    fn with(mut self, change: impl Fn(&mut Call)) -> Call {
        change(&mut self);
        self
    }
}

type Change = fn(&mut Call);

/// Changes by which a call is rejected, with the number.
const UNFIT: [(u8, Change); 22] = [
    (3, |call| call.state.l1id = 256),
    (3, |call| call.state.next_cycle = u64::MAX),
    (3, |call| call.state.base_cycle = u64::MAX),
    (4, |call| call.store.truncate(2_047)),
    (4, |call| call.store.push(0)),
    (4, |call| call.store.clear()),
    (4, |call| call.tray.truncate(8_191)),
    (4, |call| call.tray.push(0)),
    (4, |call| call.tray.clear()),
    (4, |call| call.first_free = 7),
    (4, |call| call.first_free = u64::MAX),
    (5, |call| call.input = vec![0; LIMIT + 1]),
    (5, |call| call.input.clear()),
    (5, |call| call.first_bit = 1),
    (5, |call| call.first_bit = 9),
    (5, |call| call.count = 9),
    (5, |call| call.first_bit = u64::MAX),
    (5, |call| call.count = u64::MAX),
    (5, |call| (call.first_bit, call.count) = (9, 0)),
    (5, |call| (call.first_bit, call.count) = (u64::MAX, 0)),
    (6, |call| call.state.next_cycle = CLOCK_LIMIT - 7),
    (6, |call| call.state.next_cycle = CLOCK_LIMIT),
];

/// Changes by which a call is just good.
const FIT: [(Ending, Change); 12] = [
    (Ending::Done, |_| {}),
    (Ending::Done, |call| call.first_free = 0),
    (Ending::Done, |call| call.first_free = 2),
    // One record fits, and three bits remain.
    (Ending::ListFull, |call| call.first_free = 4),
    (Ending::ListFull, |call| call.first_free = 5),
    (Ending::ListFull, |call| call.first_free = 6),
    (Ending::ListFull, |call| {
        (call.list, call.first_free) = (vec![], 0)
    }),
    (Ending::Done, |call| (call.first_bit, call.count) = (8, 0)),
    (Ending::Done, |call| call.input = vec![0; OLD_LIMIT + 1]),
    (Ending::Done, |call| call.input = vec![0; LIMIT]),
    (Ending::Done, |call| call.state.next_cycle = CLOCK_LIMIT - 8),
    (Ending::Done, |call| {
        call.state.next_cycle = CLOCK_LIMIT;
        call.count = 0;
    }),
];

#[test]
fn numbers_3_to_6_just_outside() {
    for (place, (number, change)) in UNFIT.into_iter().enumerate() {
        let call = Call::good().with(change);
        assert_eq!(call.ending(), Ending::Refused(number), "change {place}");
        // Also with a count of 0, where the count is not the fault.
        if number < 5 {
            let call = call.with(|call| call.count = 0);
            assert_eq!(call.ending(), Ending::Refused(number), "change {place}");
        }
    }
}

#[test]
fn numbers_3_to_6_just_inside() {
    for (place, (ending, change)) in FIT.into_iter().enumerate() {
        assert_eq!(Call::good().with(change).ending(), ending, "change {place}");
    }
}

/// Number 5 in document 01's words, by a limit on the input's bytes: it "is
/// over" the limit, "or the range passes its end". No sum here can wrap.
fn number_5(limit: usize, bytes: usize, first_bit: u64, count: u64) -> bool {
    bytes > limit || u128::from(first_bit) + u128::from(count) > 8 * bytes as u128
}

/// Ranges that end at the last bit, one past it and beyond all numbers, with
/// sums of first bit and count that would wrap to a small number.
fn ranges(bits: u64) -> Vec<(u64, u64)> {
    const FAR: u64 = u64::MAX;
    let before = bits.saturating_sub(1);
    let mut ranges = Vec::new();
    for first in [0, 1, before, bits, bits + 1, bits + 8, FAR - 7, FAR] {
        let rest = bits.saturating_sub(first);
        let to_zero = first.wrapping_neg();
        let wrapping = [0, 1, bits].map(|sum| to_zero.wrapping_add(sum));
        let counts = [0, 1, rest, rest + 1, FAR - 7, FAR].into_iter();
        ranges.extend(counts.chain(wrapping).map(|count| (first, count)));
    }
    ranges.sort_unstable();
    ranges.dedup();
    ranges
}

/// Holds inputs of these lengths, with all their ranges, to a limit.
fn check_lengths(limit: usize, lengths: &[usize]) {
    for &bytes in lengths {
        let mut call = Call::good().with(|call| call.input = vec![0; bytes]);
        for (first_bit, count) in ranges(8 * bytes as u64) {
            (call.first_bit, call.count) = (first_bit, count);
            let expected = match number_5(limit, bytes, first_bit, count) {
                true => Ending::Refused(5),
                false => Ending::Done,
            };
            let range = format!("{count} bits from {first_bit} of {bytes} bytes");
            assert_eq!(call.ending(), expected, "{range}");
        }
    }
}

#[test]
fn number_5_begins_past_a_mebibyte() {
    let longer = [OLD_LIMIT + 1, LIMIT - 1, LIMIT, LIMIT + 1, LIMIT + 2];
    check_lengths(LIMIT, &longer);
}

/// Document 02, F-6: "a call with at most 65,536 bytes answers as before", so
/// the rule with document 01's limit still decides for it.
#[test]
fn up_to_65_536_bytes_number_5_is_as_before() {
    check_lengths(OLD_LIMIT, &[0, 1, 40, OLD_LIMIT - 1, OLD_LIMIT]);
}

#[test]
fn the_lowest_number_wins() {
    for (higher, higher_change) in UNFIT {
        for (lower, lower_change) in UNFIT {
            if lower < higher {
                // The lower number's change comes last, so that it stands.
                let call = Call::good().with(higher_change).with(lower_change);
                assert_eq!(
                    call.ending(),
                    Ending::Refused(lower),
                    "{lower} and {higher}"
                );
            }
        }
    }
    // All four at once.
    let call = Call::good().with(|call| {
        call.state.next_cycle = CLOCK_LIMIT;
        call.state.l1id = 256;
        call.store.clear();
        call.input.clear();
    });
    assert_eq!(call.ending(), Ending::Refused(3));
}

#[test]
fn a_refused_state_is_handed_on_as_it_came() {
    let call = Call::good().with(|call| {
        call.state.plan = Plan {
            mask: 0,
            csr: 200,
            feen: 201,
            cnt: 202,
        };
        call.state.next_cycle = u64::MAX;
        call.state.base_cycle = u64::MAX;
        call.state.l1id = u32::MAX;
        call.state.write_pointers = [255; 16];
        call.state.read_pointers = [255; 16];
        call.state.registers = [0xFFFF; 16];
        call.first_bit = u64::MAX;
        call.count = u64::MAX;
        call.first_free = u64::MAX;
    });
    assert_eq!(call.ending(), Ending::Refused(3));
}

#[test]
fn list_words_outside_the_records_stay() {
    let mut call = Call::good();
    let answer = take(
        call.state,
        &call.input,
        0,
        8,
        &mut call.store,
        &mut call.tray,
        &mut call.list,
        call.first_free,
    );
    assert_eq!((answer.records_written, answer.ending), (1, Ending::Done));
    let none = u64::MAX;
    assert_eq!(call.list, [none, 0x0004_0105, 0x0004, none, none, none]);
    assert!(call.store.iter().all(|&word| word == 0xABCD_EF01));
    assert!(call.tray.iter().all(|&byte| byte == 0x5A));
}

#[test]
fn numbers_7_and_8() {
    assert_eq!(hex_line(b""), Ok(vec![]));
    assert_eq!(hex_line(b"09AF"), Ok(vec![0x09, 0xAF]));
    assert_eq!(hex_line(&[b'5'; 64]), Ok(vec![0x55; 32]));
    for length in [1, 3, 63, 65, 66, 67, 128, 200_000, 200_001] {
        let mut line = vec![b'0'; length];
        assert_eq!(hex_line(&line), Err(8), "{length}");
        // 7 wins, wherever the wrong character is.
        for place in [0, length / 2, length - 1] {
            line[place] = b'a';
            assert_eq!(hex_line(&line), Err(7), "{length} {place}");
            line[place] = b'0';
        }
    }
    for character in 0..=255_u8 {
        let digit = character.is_ascii_digit() || (b'A'..=b'F').contains(&character);
        let answer = hex_line(&[b'0', character]);
        assert_eq!(answer.err(), (!digit).then_some(7), "{character}");
    }
}
