//! The image of a state and the state of an image, by the C header's words.

use super::layout::{at, largest, phase, IMAGE_WORDS, LAYOUT, RECOGNISER};
use reader::group::Group;
use reader::{slow, Earlier, Plan, Recogniser, State, Warnings};

pub type Image = [u64; IMAGE_WORDS];

/// The image of a state. The recogniser's words that its phase does not use
/// are 0.
pub fn image(state: &State) -> Image {
    let mut words = [0; IMAGE_WORDS];
    words[at::LAYOUT] = LAYOUT;
    words[at::MASK] = u64::from(state.plan.mask);
    words[at::CSR] = u64::from(state.plan.csr);
    words[at::FEEN] = u64::from(state.plan.feen);
    words[at::CNT] = u64::from(state.plan.cnt);
    words[at::NEXT] = state.next_cycle;
    write_recogniser(&state.recogniser, &mut words);
    words[at::RUN_MODE] = u64::from(state.run_mode);
    words[at::L1ID] = u64::from(state.l1id);
    words[at::BASE] = state.base_cycle;
    words[at::WLV1] = u64::from(state.warnings.wlv1);
    words[at::WFST] = u64::from(state.warnings.wfst);
    words[at::WSLW] = u64::from(state.warnings.wslw);
    words[at::EARLIER_TIME] = state.earlier.time;
    words[at::EARLIER_KIND] = u64::from(state.earlier.kind);
    for (number, &register) in state.registers.iter().enumerate() {
        words[at::REGISTERS + number] = u64::from(register);
    }
    for (fifo, &pointer) in state.write_pointers.iter().enumerate() {
        words[at::WRITES + fifo] = u64::from(pointer);
    }
    for (fifo, &pointer) in state.read_pointers.iter().enumerate() {
        words[at::READS + fifo] = u64::from(pointer);
    }
    words
}

fn write_recogniser(recogniser: &Recogniser, words: &mut Image) {
    match *recogniser {
        Recogniser::Hunting { window } => {
            words[at::PHASE] = phase::HUNTING;
            words[at::SHIFT] = u64::from(window);
        }
        Recogniser::Body { held, received } => {
            words[at::PHASE] = phase::BODY;
            words[at::SHIFT] = u64::from(held);
            words[at::COUNT] = u64::from(received);
        }
        Recogniser::Field3 { held, received } => {
            words[at::PHASE] = phase::FIELD3;
            words[at::SHIFT] = u64::from(held);
            words[at::COUNT] = u64::from(received);
        }
        Recogniser::Field4 {
            field3,
            held,
            received,
        } => {
            words[at::PHASE] = phase::FIELD4;
            words[at::SHIFT] = u64::from(held);
            words[at::COMMAND] = u64::from(field3);
            words[at::COUNT] = u64::from(received);
        }
        Recogniser::Field5 {
            field3,
            field4,
            held,
            received,
            group,
        } => {
            words[at::PHASE] = phase::FIELD5;
            words[at::COMMAND] = u64::from(field3);
            words[at::ADDRESS] = u64::from(field4);
            words[at::COUNT] = u64::from(received);
            write_field5(field3, held, group, words);
        }
    }
}

/// The words of Field 5 that only some commands use.
fn write_field5(field3: u8, held: u32, group: Group, words: &mut Image) {
    if slow::keeps_field5(field3) {
        words[at::HELD] = u64::from(held);
    }
    if is_front_end(u64::from(field3)) {
        words[at::GROUP] = u64::from(group.bits);
        words[at::UNSTEADY] = u64::from(group.unsteady);
    }
}

/// The state of an image, sound or not; `None` for a malformed one.
pub fn state(words: &[u64]) -> Option<State> {
    let words: &Image = words.try_into().ok()?;
    let within = |place: usize| words[place] <= largest(place);
    if words[at::LAYOUT] != LAYOUT || !(0..IMAGE_WORDS).all(within) {
        return None;
    }
    Some(State {
        next_cycle: words[at::NEXT],
        base_cycle: words[at::BASE],
        run_mode: words[at::RUN_MODE] == 1,
        recogniser: read_recogniser(words),
        registers: std::array::from_fn(|number| words[at::REGISTERS + number] as u16),
        write_pointers: std::array::from_fn(|fifo| words[at::WRITES + fifo] as u8),
        read_pointers: std::array::from_fn(|fifo| words[at::READS + fifo] as u8),
        l1id: words[at::L1ID] as u32,
        warnings: Warnings {
            wlv1: words[at::WLV1] == 1,
            wfst: words[at::WFST] == 1,
            wslw: words[at::WSLW] == 1,
        },
        earlier: Earlier {
            time: words[at::EARLIER_TIME],
            kind: words[at::EARLIER_KIND] as u8,
        },
        plan: Plan {
            mask: words[at::MASK] as u16,
            csr: words[at::CSR] as u8,
            feen: words[at::FEEN] as u8,
            cnt: words[at::CNT] as u8,
        },
    })
}

/// Reads the words that the phase uses, of an image that is well-formed.
fn read_recogniser(words: &Image) -> Recogniser {
    let held = words[at::SHIFT] as u8;
    // Of a body and of Fields 3 and 4 at most three bits are received; a
    // count too large for this reader's number stays too large.
    let received = u8::try_from(words[at::COUNT]).unwrap_or(u8::MAX);
    let field3 = words[at::COMMAND] as u8;
    match words[at::PHASE] {
        phase::HUNTING => Recogniser::Hunting { window: held },
        phase::BODY => Recogniser::Body { held, received },
        phase::FIELD3 => Recogniser::Field3 { held, received },
        phase::FIELD4 => Recogniser::Field4 {
            field3,
            held,
            received,
        },
        _ => Recogniser::Field5 {
            field3,
            field4: words[at::ADDRESS] as u8,
            held: words[at::HELD] as u32,
            received: words[at::COUNT] as u32,
            group: Group {
                bits: words[at::GROUP] as u8,
                unsteady: words[at::UNSTEADY] == 1,
            },
        },
    }
}

/// The places at which an image may hold any word of its width: those that
/// its phase does not use, if the image that was lent held something where
/// its own phase does not; else none. Nothing goes by a group but a group.
pub fn unspecified_places(lent: &[u64], after: &[u64]) -> Vec<usize> {
    let (Ok(lent), Ok(after)) = (<&Image>::try_from(lent), <&Image>::try_from(after)) else {
        return Vec::new();
    };
    let unused = |words| RECOGNISER.filter(move |&place| !uses(words, place));
    let held: Vec<usize> = unused(lent).filter(|&place| lent[place] != 0).collect();
    match held[..] {
        [] => Vec::new(),
        [at::GROUP] => unused(after).filter(|&place| place == at::GROUP).collect(),
        _ => unused(after).collect(),
    }
}

/// Whether the image stands inside a WrReceiver, which has no groups.
pub fn is_inside_wr_receiver(words: &[u64]) -> bool {
    words.len() == IMAGE_WORDS
        && words[at::PHASE] == phase::FIELD5
        && words[at::COMMAND] == u64::from(slow::WR_RECEIVER)
}

/// The places of the recogniser's words that an image's phase uses.
pub fn uses(words: &Image, place: usize) -> bool {
    let in_phases = |phases: &[u64]| phases.contains(&words[at::PHASE]);
    let in_field5 = in_phases(&[phase::FIELD5]);
    let command = words[at::COMMAND];
    match place {
        at::SHIFT => !in_field5,
        at::COMMAND => in_phases(&[phase::FIELD4, phase::FIELD5]),
        at::ADDRESS => in_field5,
        at::COUNT => !in_phases(&[phase::HUNTING]),
        at::HELD => in_field5 && keeps_bits(command),
        at::GROUP | at::UNSTEADY => in_field5 && is_front_end(command),
        _ => true,
    }
}

fn keeps_bits(command: u64) -> bool {
    u8::try_from(command).is_ok_and(slow::keeps_field5)
}

fn is_front_end(command: u64) -> bool {
    u8::try_from(command).is_ok_and(slow::has_groups)
}
