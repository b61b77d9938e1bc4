//! Fit states and taking calls, of which the cases change one thing or two.

use super::call::Take;
use super::image::{image, Image};
use super::layout::RESULT_WORDS;
use super::prefilled;
use super::states::{PLAN_007F, WITH_FIELD5};
use cases::Random;
use reader::group::Group;
use reader::record::kind;
use reader::{recogniser, slow, Earlier, Plan, Recogniser, State};

/// What CSR, FEEN and CNT hold: the same, so that a plan can name another of
/// them as CNT without changing a length.
pub const CNT: u16 = 0x0012;

/// The states by the default plan and by mask 007F, for what goes by the
/// registers that exist.
pub fn states_by_both_plans() -> Vec<(String, State)> {
    let before = states_by(PLAN_007F).into_iter();
    let before = before.map(|(name, state)| (format!("{name}, mask 007F"), state));
    states().into_iter().chain(before).collect()
}

/// A state of each phase, and within Field 5 of each command, sound.
pub fn states() -> Vec<(String, State)> {
    states_by(Plan::DEFAULT)
}

fn states_by(plan: Plan) -> Vec<(String, State)> {
    let (held, received) = (0b10, 2);
    let mut recognisers = vec![
        (
            "hunting".to_string(),
            Recogniser::Hunting { window: 0b1011 },
        ),
        ("in a body".to_string(), Recogniser::Body { held, received }),
        (
            "in Field 3".to_string(),
            Recogniser::Field3 { held, received },
        ),
    ];
    let field4 = Recogniser::Field4 {
        field3: slow::WR_FIFO,
        held,
        received,
    };
    recognisers.push(("in Field 4".to_string(), field4));
    for field3 in WITH_FIELD5 {
        let name = format!("in Field 5 of command {field3}");
        recognisers.push((name, in_field5(field3)));
    }
    let state = |(name, recogniser)| (name, state(plan, recogniser));
    recognisers.into_iter().map(state).collect()
}

fn in_field5(field3: u8) -> Recogniser {
    let kept = slow::keeps_field5(field3);
    Recogniser::Field5 {
        field3,
        field4: 3,
        held: if kept { 0b101 } else { 0 },
        received: 3,
        group: Group::default(),
    }
}

fn state(plan: Plan, recogniser: Recogniser) -> State {
    let mut state = State::start(plan, 1_000);
    state.base_cycle = 900;
    // Just ahead, so that what ends soon is too close (document 02, F-5).
    state.earlier = Earlier {
        time: 998,
        kind: kind::FAST + recogniser::BCR,
    };
    state.run_mode = matches!(
        recogniser,
        Recogniser::Hunting { .. } | Recogniser::Body { .. }
    );
    state.recogniser = recogniser;
    state.l1id = 7;
    for address in [state.plan.csr, state.plan.feen, state.plan.cnt] {
        state.registers[usize::from(address)] = CNT;
    }
    state.write_pointers = std::array::from_fn(|fifo| fifo as u8 * 8);
    state.read_pointers = std::array::from_fn(|fifo| 127 - fifo as u8);
    state
}

/// The image of a state hunting in RunMode.
pub fn hunting() -> Image {
    image(&state(Plan::DEFAULT, Recogniser::IDLE))
}

/// A call that is fit if the image is. Its range neither starts nor ends at
/// a byte's start, and its list has words ahead of the free ones.
pub fn call(image: &[u64], random: &mut Random) -> Take {
    Take {
        image: image.to_vec(),
        input: prefilled::bytes(random, 40),
        first: 5,
        count: 200,
        store: prefilled::store(random),
        tray: prefilled::tray(random),
        list: prefilled::words(random, 10),
        free: 3,
        result: prefilled::words(random, RESULT_WORDS),
    }
}
