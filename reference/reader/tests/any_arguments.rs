//! Any arguments at all: no panic, refusals change nothing, and a sound
//! state stays sound. Run without `--release`, overflows show too.

mod common;

use cases::Random;
use common::PLAN_007F;
use reader::group::Group;
use reader::{frame_part, open, sound, take};
use reader::{Answer, Earlier, Ending, Plan, Recogniser, State, Warnings};

const EDGES: [u64; 16] = [
    0,
    1,
    2,
    7,
    8,
    15,
    16,
    127,
    128,
    255,
    256,
    65_535,
    65_536,
    (1 << 48) - 1,
    1 << 48,
    u64::MAX,
];

/// The longest input (document 02, F-6).
const LONGEST: usize = 1_048_576;

/// Often an edge, sometimes anything.
fn edge(random: &mut Random) -> u64 {
    match random.below(3) {
        0 => random.word(),
        1 => random.below(4),
        _ => EDGES[random.below(EDGES.len() as u64) as usize],
    }
}

fn any_plan(random: &mut Random) -> Plan {
    match random.below(3) {
        0 => Plan::DEFAULT,
        1 => PLAN_007F,
        _ => Plan {
            mask: random.word() as u16,
            csr: random.below(18) as u8,
            feen: random.below(18) as u8,
            cnt: edge(random) as u8,
        },
    }
}

fn any_recogniser(random: &mut Random) -> Recogniser {
    let (held, received) = (edge(random) as u8, edge(random) as u8);
    match random.below(5) {
        0 => Recogniser::Hunting {
            window: random.below(34) as u8,
        },
        1 => Recogniser::Body { held, received },
        2 => Recogniser::Field3 { held, received },
        3 => Recogniser::Field4 {
            field3: random.below(17) as u8,
            held,
            received,
        },
        _ => any_field5(random),
    }
}

fn any_field5(random: &mut Random) -> Recogniser {
    let received = if random.bit() {
        random.below(66_000) as u32
    } else {
        edge(random) as u32
    };
    Recogniser::Field5 {
        field3: random.below(17) as u8,
        field4: random.below(17) as u8,
        held: edge(random) as u32,
        received,
        group: Group {
            // One that a front-end frame can hold, or any.
            bits: if random.one_in(3) {
                random.word() as u8
            } else {
                random.below(1 << (received % 8)) as u8
            },
            unsteady: random.bit(),
        },
    }
}

/// Whether something is held of an unfinished front-end group.
fn holds_group(state: &State) -> bool {
    matches!(
        state.recogniser,
        Recogniser::Field5 {
            field3: 4 | 5,
            group: Group { bits: 1.., .. },
            ..
        }
    )
}

fn any_state(random: &mut Random) -> State {
    let (_, mut state) = open(Plan::DEFAULT, 0);
    state.plan = any_plan(random);
    state.recogniser = any_recogniser(random);
    state.next_cycle = edge(random);
    state.base_cycle = edge(random).min(if random.one_in(9) {
        u64::MAX
    } else {
        state.next_cycle
    });
    state.run_mode = random.one_in(3);
    for address in 0..16 {
        if state.plan.has(address) || random.one_in(400) {
            state.registers[usize::from(address)] = random.word() as u16;
        }
    }
    for fifo in 0..16 {
        let limit = if random.one_in(400) { 256 } else { 128 };
        state.write_pointers[fifo] = random.below(limit) as u8;
        state.read_pointers[fifo] = random.below(limit) as u8;
    }
    state.l1id = if random.one_in(9) {
        edge(random) as u32
    } else {
        random.below(256) as u32
    };
    state.warnings = Warnings {
        wlv1: random.bit(),
        wfst: random.bit(),
        wslw: random.bit(),
    };
    state.earlier = any_earlier(random, state.next_cycle);
    state
}

/// Any kind, or none. The time is mostly past, often just so, or anything.
fn any_earlier(random: &mut Random, next: u64) -> Earlier {
    let kinds = [0x00, 0x01, 0x11, 0x12, 0x18, random.word() as u8];
    let time = match random.below(10) {
        0 => edge(random),
        1..=5 => next.saturating_sub(1 + random.below(12)),
        _ => next.saturating_sub(1).min(edge(random)),
    };
    Earlier {
        time,
        kind: kinds[random.below(6) as usize],
    }
}

/// An input's length and a range.
struct Part {
    bytes: usize,
    first_bit: u64,
    count: u64,
}

impl Part {
    /// A short input or one about a limit. The range is somewhere at its
    /// start, about its end, or anything, also with a sum that would wrap.
    fn any(random: &mut Random) -> Part {
        let bytes = match random.below(8) {
            0 => 65_535 + random.below(3) as usize,
            1 => LONGEST - 1 + random.below(4) as usize,
            _ => 200,
        };
        let bits = 8 * bytes as u64;
        let far = [0, 1, bits, bits + 1, u64::MAX - bits, u64::MAX - 7];
        let far = |random: &mut Random| far[random.below(6) as usize];
        let (first_bit, count) = match random.below(8) {
            0 => (edge(random), edge(random)),
            1 => (far(random), far(random)),
            2 => (bits - random.below(40), random.below(41)),
            _ => (random.below(800), random.below(801)),
        };
        Part {
            bytes,
            first_bit,
            count,
        }
    }

    /// Whether number 5 does not apply.
    fn fits(&self) -> bool {
        let end = u128::from(self.first_bit) + u128::from(self.count);
        self.bytes <= LONGEST && end <= 8 * self.bytes as u128
    }
}

/// What holds of every answer, with a list whose words were 7.
fn check_answer(state: &State, part: &Part, list: &[u64], first_free: u64, answer: &Answer) {
    if let Ending::Refused(number) = answer.ending {
        assert_eq!(sound(state), number != 3);
        assert!(number < 5 || part.fits() == (number == 6));
        assert_eq!(&answer.state, state);
        assert_eq!((answer.bits_taken, answer.records_written), (0, 0));
        assert!(list.iter().all(|&word| word == 7));
        return;
    }
    assert!(sound(state) && sound(&answer.state) && part.fits());
    assert_eq!(
        answer.state.next_cycle,
        state.next_cycle + answer.bits_taken
    );
    let used = first_free..first_free + 2 * answer.records_written;
    for (place, &word) in (0..).zip(list) {
        assert!(used.contains(&place) || word == 7);
    }
}

#[test]
fn any_call() {
    let mut random = Random::new(5);
    let (mut accepted, mut long, mut grouped, mut refused) = (0, 0, 0, [0; 7]);
    let mut close = 0;
    let room: Vec<u8> = (0..LONGEST + 2).map(|_| random.word() as u8).collect();
    let mut store: Vec<u32> = (0..2_049).map(|_| random.word() as u32).collect();
    let mut tray: Vec<u8> = (0..8_193).map(|_| random.word() as u8).collect();
    for _ in 0..600_000 {
        let state = any_state(&mut random);
        let mut list = vec![7; random.below(12) as usize];
        let store_length = 2_048 + usize::from(random.one_in(50));
        let tray_length = 8_192 - usize::from(random.one_in(50));
        let part = Part::any(&mut random);
        let first_free = match random.below(8) {
            0 => edge(&mut random),
            _ => random.below(list.len() as u64 + 1),
        };
        let answer = take(
            state.clone(),
            &room[..part.bytes],
            part.first_bit,
            part.count,
            &mut store[..store_length],
            &mut tray[..tray_length],
            &mut list,
            first_free,
        );
        check_answer(&state, &part, &list, first_free, &answer);
        if let Ending::Refused(number) = answer.ending {
            refused[usize::from(number)] += 1;
        } else {
            accepted += 1;
            long += u32::from(part.bytes > 65_536);
            grouped += u32::from(holds_group(&state));
            let first = list.get(first_free as usize);
            let first = first.filter(|_| answer.records_written > 0);
            close += u32::from(first.is_some_and(|word| word & 0x20 != 0));
        }
    }
    assert!(accepted > 10_000 && long > 1_000, "{accepted} {long}");
    assert!(grouped > 300, "{grouped}");
    // First records too close to the state's earlier one (document 02, F-5).
    assert!(close > 300, "{close}");
    assert!(refused[3..].iter().all(|&count| count > 100), "{refused:?}");
}

#[test]
fn any_opening_and_any_frame_part() {
    let mut random = Random::new(6);
    for _ in 0..150_000 {
        let plan = any_plan(&mut random);
        let (number, state) = open(plan, edge(&mut random));
        assert!(sound(&state));
        assert_eq!(number == Some(1), !plan.opens());
        let tray = vec![0; random.below(20) as usize];
        let bits = edge(&mut random);
        let part = frame_part(&tray, bits).len() as u64;
        assert_eq!(
            part,
            if bits <= tray.len() as u64 * 8 {
                bits.div_ceil(8)
            } else {
                0
            }
        );
    }
}
