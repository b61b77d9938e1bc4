//! Each clause of soundness ("A state is sound when ...") broken alone.

mod common;

use common::{earlier, Reader, PLANS, PLAN_007F};
use reader::group::Group;
use reader::limits::CLOCK_LIMIT;
use reader::{sound, Plan, Recogniser, State};

fn state() -> State {
    Reader::running().state
}

fn changed(change: impl FnOnce(&mut State)) -> bool {
    let mut state = state();
    change(&mut state);
    sound(&state)
}

/// Soundness with this recogniser, RunMode off and this CNT.
fn with(recogniser: Recogniser, cnt: u16) -> bool {
    changed(|state| {
        state.run_mode = false;
        state.recogniser = recogniser;
        state.registers[5] = cnt;
    })
}

fn field5(field3: u8, held: u32, received: u32) -> Recogniser {
    Recogniser::Field5 {
        field3,
        field4: 0,
        held,
        received,
        group: Group::default(),
    }
}

#[test]
fn the_plan_would_open() {
    assert!(changed(|_| {}));
    assert!(!changed(|state| state.plan.csr = 2));
    assert!(!changed(|state| state.plan.csr = 11));
    assert!(!changed(|state| state.plan.feen = 200));
    assert!(!changed(|state| state.plan.cnt = 15));
    assert!(!changed(|state| state.plan = Plan {
        mask: 0x005F,
        ..Plan::DEFAULT
    }));
    assert!(!changed(|state| state.plan.mask = 0x07DF));
    // Registers 7 to 10 may be any of the three, but not by mask 007F.
    assert!(changed(|state| state.plan = PLAN_007F));
    for address in 7..=10 {
        for mask in [0x07FF, 0x007F] {
            let answers = [
                changed(|state| (state.plan.mask, state.plan.csr) = (mask, address)),
                changed(|state| (state.plan.mask, state.plan.feen) = (mask, address)),
                changed(|state| (state.plan.mask, state.plan.cnt) = (mask, address)),
            ];
            assert_eq!(answers, [mask == 0x07FF; 3], "{mask:04X} {address}");
        }
    }
}

#[test]
fn cycles() {
    for (next, base, is_sound) in [
        (CLOCK_LIMIT, 0, true),
        (CLOCK_LIMIT, CLOCK_LIMIT, true),
        (CLOCK_LIMIT + 1, 0, false),
        (u64::MAX, u64::MAX, false),
        (9, 9, true),
        (9, 10, false),
        (0, u64::MAX, false),
    ] {
        let answer = changed(|state| (state.next_cycle, state.base_cycle) = (next, base));
        assert_eq!(answer, is_sound, "{next} {base}");
    }
}

/// Document 02, F-5: "that time below its next cycle". Any kind will do, and
/// with kind 0 there is no record, so that nothing is asked of the time.
#[test]
fn the_earlier_record_is_past() {
    for next in [0, 1, 9, 1_000, CLOCK_LIMIT - 1, CLOCK_LIMIT] {
        let past = [0, 1, next.saturating_sub(2), next.saturating_sub(1)];
        let ahead = [next, next + 1, CLOCK_LIMIT, 1 << 63, u64::MAX];
        for time in past.into_iter().chain(ahead) {
            for kind in 0..=255 {
                let answer = changed(|state| {
                    (state.next_cycle, state.base_cycle) = (next, 0);
                    state.earlier = earlier(time, kind);
                });
                let is_sound = kind == 0 || time < next;
                assert_eq!(answer, is_sound, "{next} {time} {kind:02X}");
            }
        }
    }
}

/// An earlier record excuses nothing else.
#[test]
fn a_past_record_does_not_excuse_a_clock() {
    for kind in [0x00, 0x01, 0x11, 0xFF] {
        assert!(!changed(|state| {
            state.next_cycle = CLOCK_LIMIT + 1;
            state.earlier = earlier(5, kind);
        }));
    }
}

#[test]
fn pointers() {
    for fifo in 0..16 {
        assert!(changed(|state| state.write_pointers[fifo] = 127));
        assert!(changed(|state| state.read_pointers[fifo] = 127));
        for pointer in [128, 255] {
            assert!(!changed(|state| state.write_pointers[fifo] = pointer));
            assert!(!changed(|state| state.read_pointers[fifo] = pointer));
        }
    }
}

#[test]
fn missing_registers_hold_zero() {
    for (plan, present) in PLANS {
        for address in 0..16 {
            let answer = changed(|state| {
                state.plan = plan;
                state.registers[address] = 1;
            });
            let is_sound = address < usize::from(present);
            assert_eq!(answer, is_sound, "{plan:?} {address}");
        }
    }
}

#[test]
fn a_stored_warning_bit_is_sound() {
    assert!(changed(|state| state.registers[0] = 0xFFFF));
}

#[test]
fn run_mode_is_off_inside_a_slow() {
    let inside = |recogniser| {
        changed(|state| {
            state.registers[5] = 1;
            state.recogniser = recogniser;
        })
    };
    assert!(inside(Recogniser::Body {
        held: 5,
        received: 3
    }));
    let slow = [
        Recogniser::Field3 {
            held: 0,
            received: 0,
        },
        Recogniser::Field3 {
            held: 1,
            received: 3,
        },
        Recogniser::Field4 {
            field3: 8,
            held: 0,
            received: 0,
        },
        Recogniser::Field4 {
            field3: 8,
            held: 7,
            received: 3,
        },
        field5(0, 0, 0),
        field5(4, 0, 63),
        field5(6, 0, 7),
    ];
    for recogniser in slow {
        assert!(!inside(recogniser), "{recogniser:?}");
        assert!(with(recogniser, 1), "{recogniser:?}");
    }
}

#[test]
fn window_and_l1id_fit() {
    for window in 0..=255 {
        let answer = changed(|state| state.recogniser = Recogniser::Hunting { window });
        assert_eq!(answer, window < 32, "{window}");
    }
    for (l1id, is_sound) in [(255, true), (256, false), (u32::MAX, false)] {
        assert_eq!(changed(|state| state.l1id = l1id), is_sound);
    }
}

#[test]
fn fields_of_four_bits() {
    for received in 0..=255 {
        for held in 0..=255 {
            let is_sound = received < 4 && u32::from(held) < 1 << received;
            assert_eq!(with(Recogniser::Body { held, received }, 0), is_sound);
            assert_eq!(with(Recogniser::Field3 { held, received }, 0), is_sound);
            for field3 in [0, 7, 15, 16, 255] {
                let recogniser = Recogniser::Field4 {
                    field3,
                    held,
                    received,
                };
                assert_eq!(with(recogniser, 0), is_sound && field3 < 16);
            }
        }
    }
}

#[test]
fn inside_field_5_the_command_has_it() {
    for field3 in 0..=255 {
        let is_sound = matches!(field3, 0..=6 | 10);
        assert_eq!(with(field5(field3, 0, 0), 0xFFFF), is_sound, "{field3}");
    }
}

#[test]
fn field_4_fits_its_width() {
    for field4 in [15, 16, 255] {
        let recogniser = Recogniser::Field5 {
            field3: 3,
            field4,
            held: 0,
            received: 0,
            group: Group::default(),
        };
        assert_eq!(with(recogniser, 0), field4 < 16);
    }
}

/// Field 3, CNT, cycles of Field 5.
const LENGTHS: [(u8, u16, u32); 14] = [
    (0, 0, 16),
    (1, 0, 16),
    (2, 0, 27),
    (3, 0, 27),
    (10, 0, 4),
    (4, 0, 0),
    (4, 1, 64),
    (5, 8, 8),
    (5, 0xFFFF, 65_976),
    (6, 0, 0),
    (6, 0xE000, 0),
    (6, 0xE001, 8),
    (6, 0xFFFF, 65_528),
    (4, 0x2000, 8_192),
];

#[test]
fn fewer_bits_received_than_field_5_has() {
    for (field3, cnt, length) in LENGTHS {
        for received in [0, 1, length.saturating_sub(1), length, length + 1, u32::MAX] {
            let answer = with(field5(field3, 0, received), cnt);
            assert_eq!(answer, received < length, "{field3} {cnt:04X} {received}");
        }
    }
}

#[test]
fn the_number_held_fits_where_it_is_kept() {
    for (field3, kept) in [
        (0, true),
        (2, true),
        (10, true),
        (1, false),
        (3, false),
        (4, false),
    ] {
        for received in 0..4 {
            let answer = with(field5(field3, 1 << received, received), 0xFFFF);
            assert_eq!(answer, !kept, "{field3} {received}");
            assert!(with(field5(field3, (1 << received) - 1, received), 0xFFFF));
        }
    }
    assert!(with(field5(2, (1 << 26) - 1, 26), 0));
    assert!(!with(field5(2, 1 << 26, 26), 0));
    assert!(with(field5(6, u32::MAX, 0), 1));
}

/// What bits leave of a group, shifted in one after the other.
fn left_by(bits: &[bool]) -> u32 {
    bits.iter().fold(0, |left, &bit| 2 * left + u32::from(bit))
}

/// All lists of so many bits.
fn lists(count: u32) -> Vec<Vec<bool>> {
    (0..count).fold(vec![Vec::new()], |lists, _| {
        let longer = |list: &Vec<bool>| [false, true].map(|bit| [&list[..], &[bit]].concat());
        lists.iter().flat_map(longer).collect()
    })
}

fn with_group(field3: u8, received: u32, bits: u8, unsteady: bool, cnt: u16) -> bool {
    let group = Group { bits, unsteady };
    let recogniser = Recogniser::Field5 {
        field3,
        field4: 0,
        held: 0,
        received,
        group,
    };
    with(recogniser, cnt)
}

/// Document 02, F-4: what is held of an unfinished group is what some bits,
/// as many as its cycles received, would leave. Nothing is asked of
/// `unsteady`.
#[test]
fn the_group_held_is_left_by_as_many_bits() {
    let last = 65_976 - 8;
    for cycles in 0..8 {
        let lists = lists(cycles);
        assert_eq!(lists.len(), 1 << cycles);
        for bits in 0..=255 {
            let exists = lists.iter().any(|list| left_by(list) == u32::from(bits));
            for ahead in [0, 8, 64, 248, 256, 4_096, 32_768, last] {
                for field3 in [4, 5] {
                    for unsteady in [false, true] {
                        let answer = with_group(field3, ahead + cycles, bits, unsteady, 0xFFFF);
                        assert_eq!(answer, exists, "{field3} {ahead} {cycles} {bits:08b}");
                    }
                }
            }
        }
    }
}

/// A group fits whatever the length; one that is whole is none.
#[test]
fn a_fit_group_does_not_excuse_a_count() {
    for field3 in [4, 5] {
        for bits in 0..=255 {
            assert_eq!(with_group(field3, 7, bits, false, 8), bits < 128);
            assert!(!with_group(field3, 8, bits, false, 8));
            assert!(!with_group(field3, 0, bits, false, 0));
        }
    }
}

/// The other commands have no groups. The other phases hold none at all.
#[test]
fn nothing_is_asked_of_a_group_elsewhere() {
    for (field3, length) in [(0, 16), (1, 16), (2, 27), (3, 27), (6, 65_528), (10, 4)] {
        for received in (0..16).filter(|&received| received < length) {
            for bits in 0..=255 {
                for unsteady in [false, true] {
                    let answer = with_group(field3, received, bits, unsteady, 0xFFFF);
                    assert!(answer, "{field3} {received} {bits:08b}");
                }
            }
        }
    }
}
