//! Sound states from which calls start.

use cases::Random;
use reader::group::Group;
use reader::limits::CLOCK_LIMIT;
use reader::{slow, Earlier, Plan, Recogniser, State, Warnings};

/// Registers 0 to 6: the default up to document 02, F-9. Addresses 7 to 10
/// are missing by it, and exist by the default.
pub const PLAN_007F: Plan = plan(0x007F, 0, 2, 5);

/// Plans with few and many addresses, the highest one too.
pub const PLANS: [Plan; 7] = [
    Plan::DEFAULT,
    PLAN_007F,
    plan(0xFFFF, 15, 0, 7),
    plan(0x8421, 15, 10, 0),
    plan(0x0007, 2, 1, 0),
    plan(0xC001, 0, 15, 14),
    plan(0x0FF8, 3, 11, 8),
];

const fn plan(mask: u16, csr: u8, feen: u8, cnt: u8) -> Plan {
    Plan {
        mask,
        csr,
        feen,
        cnt,
    }
}

/// The commands with a Field 5.
pub const WITH_FIELD5: [u8; 8] = [
    slow::WR_REGISTER,
    slow::RD_REGISTER,
    slow::WR_FIFO,
    slow::RD_FIFO,
    slow::WR_FRONT_END,
    slow::RD_FRONT_END,
    slow::WR_RECEIVER,
    slow::GLOBAL_RESET_FE,
];

/// A sound state of any phase, with counters near their ends now and then.
pub fn random_state(random: &mut Random, plan: Plan) -> State {
    let next_cycle = random_cycle(random);
    let mut state = State::start(plan, next_cycle);
    state.base_cycle = match random.below(3) {
        0 => next_cycle,
        1 => next_cycle.saturating_sub(random.below(600)),
        _ => random.below(next_cycle + 1),
    };
    state.l1id = [0, 127, 254, 255, random.below(256) as u32][random.below(5) as usize];
    state.warnings = Warnings {
        wlv1: random.bit(),
        wfst: random.bit(),
        wslw: random.bit(),
    };
    for address in (0..16).filter(|&address| plan.has(address)) {
        state.registers[usize::from(address)] = random.word() as u16;
    }
    // Small, so that a frame ends within the stream.
    state.registers[usize::from(plan.cnt)] = 1 + random.below(40) as u16;
    let pointer =
        |random: &mut Random| [0, 126, 127, random.below(128) as u8][random.below(4) as usize];
    state.write_pointers = std::array::from_fn(|_| pointer(random));
    state.read_pointers = std::array::from_fn(|_| pointer(random));
    state.recogniser = random_recogniser(random, state.cnt());
    state.run_mode = random.bit()
        && matches!(
            state.recogniser,
            Recogniser::Hunting { .. } | Recogniser::Body { .. }
        );
    state.earlier = random_earlier(random, next_cycle);
    state
}

/// Kinds of an earlier record that ask for zeros, or overlap; and two that no
/// record has.
pub const EARLIER_KINDS: [u8; 8] = [0x00, 0x01, 0x11, 0x12, 0x18, 0x2F, 0x77, 0xFF];

/// An earlier record that is past (document 02, F-5), often just so; or none,
/// with any time. By numbers of its own, so that what else a state and its
/// stream have stays what it was.
fn random_earlier(random: &Random, next_cycle: u64) -> Earlier {
    let mut random = Random::new(random.clone().word() ^ 0xF5);
    let kind = match random.below(4) {
        0 => random.word() as u8,
        _ => EARLIER_KINDS[random.below(EARLIER_KINDS.len() as u64) as usize],
    };
    if kind == 0 || next_cycle == 0 {
        let near = next_cycle.wrapping_sub(random.below(20));
        let time = [near, random.word(), next_cycle, u64::MAX][random.below(4) as usize];
        return Earlier { time, kind: 0 };
    }
    let time = match random.below(4) {
        0 => random.below(next_cycle),
        _ => (next_cycle - 1).saturating_sub(random.below(20)),
    };
    Earlier { time, kind }
}

/// An opening cycle; a stream from it may reach the last one.
pub fn random_cycle(random: &mut Random) -> u64 {
    match random.below(10) {
        0..=2 => 0,
        3..=5 => random.below(1 << 20),
        6..=8 => random.below(CLOCK_LIMIT),
        _ => CLOCK_LIMIT - 1 - random.below(400),
    }
}

fn random_recogniser(random: &mut Random, cnt: u16) -> Recogniser {
    let received = random.below(4) as u8;
    let held = random.below(1 << received) as u8;
    match random.below(8) {
        0..=2 => Recogniser::Hunting {
            window: random.below(32) as u8,
        },
        3 => Recogniser::Body { held, received },
        4 => Recogniser::Field3 { held, received },
        5 => Recogniser::Field4 {
            field3: random.below(16) as u8,
            held,
            received,
        },
        _ => random_field5(random, cnt),
    }
}

fn random_field5(random: &mut Random, cnt: u16) -> Recogniser {
    let field3 = WITH_FIELD5[random.below(8) as usize];
    let cycles = slow::field5_cycles(field3, cnt).unwrap_or(0).max(1);
    let received = random.below(u64::from(cycles)) as u32;
    let held = if slow::keeps_field5(field3) {
        random.below(1 << received) as u32
    } else {
        0
    };
    Recogniser::Field5 {
        field3,
        field4: random.below(16) as u8,
        held,
        received,
        group: if slow::has_groups(field3) {
            random_group(random, received)
        } else {
            Group::default()
        },
    }
}

/// What so many cycles of a front-end frame can leave of its present group.
fn random_group(random: &mut Random, received: u32) -> Group {
    Group {
        bits: random.below(1 << (received % slow::GROUP_CYCLES)) as u8,
        unsteady: random.bit(),
    }
}
