//! Generated streams of each recipe, ones with noisy front-end groups and ones
//! of commands crowded together, cut into calls at random places.

use super::call::{Call, Open};
use super::checker::Checker;
use super::cut::{run, Carried};
use super::image::{image, uses};
use super::layout::{at, IMAGE_WORDS};
use super::prefilled;
use super::states::{random_cycle, random_state, PLANS};
use cases::generate::{
    bits, commands_at, crowded_commands_at, flip_some, flipped_commands_at, noisy_commands_at,
    Addresses, Noise,
};
use cases::{Random, Stream};
use reader::limits::CLOCK_LIMIT;
use reader::{slow, Plan, State};
use std::io;

/// Streams of ordinary length, and ones with frames as long as they come.
const STREAMS: u64 = 48 * RECIPES * PLANS.len() as u64;
const LONGEST: u64 = 24;

/// Streams with noisy front-end groups (document 02, F-4), and what they have
/// in turn.
const NOISY: u64 = 24 * NOISES.len() as u64 * PLANS.len() as u64;
const NOISES: [Noise; 4] = [Noise::Late, Noise::Any, Noise::Cycles(3), Noise::Cycles(20)];

/// Streams of commands crowded together (document 02, F-5): whole, with one
/// bit inverted and with many, each from an opening and from any state.
const CROWDED: u64 = 16 * CROWDED_RECIPES * PLANS.len() as u64;
const CROWDED_RECIPES: u64 = 6;

/// One stream in so many is cut a second time.
const CUT_AGAIN: u64 = 4;

const SEED: u64 = 0x1F4C_E000_0000;
const NOISY_SEED: u64 = 0x1F4C_E0F4_0000;
const CROWDED_SEED: u64 = 0x1F4C_E0F5_0000;

pub fn check(checker: &mut Checker) -> io::Result<()> {
    for number in 0..STREAMS {
        let mut random = Random::new(SEED + number);
        let plan = PLANS[(number / RECIPES % PLANS.len() as u64) as usize];
        let stream = stream(&mut random, number % RECIPES, plan);
        let name = format!("stream {number}");
        check_stream(
            checker,
            &name,
            plan,
            number % RECIPES == ANY_STATE,
            &stream,
            &mut random,
        )?;
    }
    for number in 0..LONGEST {
        let mut random = Random::new(SEED + STREAMS + number);
        let stream = longest(&mut random, number);
        let name = format!("longest stream {number}");
        check_stream(checker, &name, Plan::DEFAULT, false, &stream, &mut random)?;
    }
    for number in 0..NOISY {
        let mut random = Random::new(NOISY_SEED + number);
        let noise = NOISES[(number % NOISES.len() as u64) as usize];
        let plan = PLANS[(number / NOISES.len() as u64 % PLANS.len() as u64) as usize];
        let few = 3 + random.below(20) as usize;
        let stream = noisy_commands_at(addresses(plan), noise, &mut random, few);
        let name = format!("noisy stream {number}");
        check_stream(checker, &name, plan, false, &stream, &mut random)?;
    }
    for number in 0..CROWDED {
        let mut random = Random::new(CROWDED_SEED + number);
        let recipe = number % CROWDED_RECIPES;
        let plan = PLANS[(number / CROWDED_RECIPES % PLANS.len() as u64) as usize];
        let stream = crowded(&mut random, recipe, plan);
        let name = format!("crowded stream {number}");
        let any_state = recipe % 2 == 1;
        check_stream(checker, &name, plan, any_state, &stream, &mut random)?;
    }
    Ok(())
}

fn crowded(random: &mut Random, recipe: u64, plan: Plan) -> Stream {
    let few = 3 + random.below(20) as usize;
    let mut stream = crowded_commands_at(addresses(plan), random, few);
    match recipe / 2 {
        0 => stream,
        1 => damaged(stream, random),
        _ => {
            flip_some(&mut stream, random, 40);
            stream
        }
    }
}

const RECIPES: u64 = 18;
/// The recipe that starts in a state of any phase.
const ANY_STATE: u64 = 15;

fn stream(random: &mut Random, recipe: u64, plan: Plan) -> Stream {
    let few = 3 + random.below(20) as usize;
    match recipe {
        0..=3 => commands_at(addresses(plan), random, few),
        4..=7 => damaged(commands_at(addresses(plan), random, few), random),
        8..=10 => {
            let mut stream = commands_at(addresses(plan), random, few);
            flip_some(&mut stream, random, [10, 30, 100][(recipe - 8) as usize]);
            stream
        }
        11 => commands_at(addresses(plan), random, 4 * few),
        12 => frames(plan, random),
        13 => Stream::new().en_data_take().raw(&noise(random)),
        16 => flipped_commands_at(addresses(plan), random, few),
        17 => damaged(flipped_commands_at(addresses(plan), random, few), random),
        _ => Stream::new().raw(&noise(random)),
    }
}

/// Where a plan has the registers that the streams write.
pub fn addresses(plan: Plan) -> Addresses {
    let Plan { csr, feen, cnt, .. } = plan;
    Addresses { csr, feen, cnt }
}

/// One bit inverted.
fn damaged(mut stream: Stream, random: &mut Random) -> Stream {
    let place = random.below(stream.bits.len() as u64) as usize;
    stream.bits[place] = !stream.bits[place];
    stream
}

fn noise(random: &mut Random) -> Vec<bool> {
    let count = 20 + random.below(300) as u32;
    bits(random, count)
}

/// Frames of some hundred bits by several CNT.
fn frames(plan: Plan, random: &mut Random) -> Stream {
    let mut stream = Stream::new();
    for _ in 0..1 + random.below(4) {
        let cnt = random.word() as u16 & [0x00FF, 0x07F8, 0x0007, 0xE01F][random.below(4) as usize];
        stream = stream.wr_register(plan.cnt, cnt);
        let field3 = slow::WR_FRONT_END + random.below(3) as u8;
        stream = frame(stream, random, field3, cnt);
        stream = stream.lv1();
    }
    stream
}

/// One frame by a CNT that has been written.
fn frame(stream: Stream, random: &mut Random, field3: u8, cnt: u16) -> Stream {
    if field3 == slow::WR_RECEIVER {
        return stream.wr_receiver(&bits(random, slow::receiver_bits(cnt)));
    }
    let count = slow::data_bits(cnt) + slow::control_bits(cnt);
    let stream = stream.front_end(field3, &bits(random, count));
    if random.bit() {
        damaged(stream, random)
    } else {
        stream
    }
}

/// A frame of some 65,000 cycles and then a short one, which leaves the rest
/// of the tray as it is.
fn longest(random: &mut Random, number: u64) -> Stream {
    let cnt = [0xFFFF, 0x1FFF, 0xFFF8, 0xF00F][(number / 3 % 4) as usize];
    let field3 = [4, 5, 6][(number % 3) as usize];
    let stream = Stream::new().wr_register(Plan::DEFAULT.cnt, cnt);
    let stream = frame(stream, random, field3, cnt);
    let stream = stream.wr_register(Plan::DEFAULT.cnt, 0x000A);
    frame(stream, random, slow::WR_RECEIVER, 0x000A).lv1()
}

fn check_stream(
    checker: &mut Checker,
    name: &str,
    plan: Plan,
    any_state: bool,
    stream: &Stream,
    random: &mut Random,
) -> io::Result<()> {
    let state = if any_state {
        random_state(random, plan)
    } else {
        opened(checker, name, plan, stream, random)?
    };
    let mut image = image(&state);
    // What the phase does not use means nothing.
    if any_state && random.bit() && !uses(&image, at::GROUP) {
        image[at::GROUP] = random.below(256);
    }
    let start = Carried {
        image: image.to_vec(),
        store: prefilled::store(random),
        tray: prefilled::tray(random),
    };
    let outcome = run(checker, name, &stream.bits, start.clone(), random)?;
    if random.one_in(CUT_AGAIN) {
        let again = format!("{name}, cut again");
        let other = run(checker, &again, &stream.bits, start, random)?;
        let fault = (outcome != other).then_some("the two cuts differ in records or state");
        checker.report(again, fault.map(str::to_string))?;
    }
    Ok(())
}

/// Opens into a prefilled image. Near the last cycle the stream just ends, or
/// does not.
fn opened(
    checker: &mut Checker,
    name: &str,
    plan: Plan,
    stream: &Stream,
    random: &mut Random,
) -> io::Result<State> {
    let cycle = if random.one_in(8) {
        let length = stream.bits.len() as u64;
        (CLOCK_LIMIT - length + 2 - random.below(5)).min(CLOCK_LIMIT - 1)
    } else {
        random_cycle(random)
    };
    let open = Call::Open(Open {
        mask: u64::from(plan.mask),
        csr: u64::from(plan.csr),
        feen: u64::from(plan.feen),
        cnt: u64::from(plan.cnt),
        cycle,
        image: prefilled::words(random, IMAGE_WORDS),
    });
    checker.check_number(format!("{name}, opening"), 0, &open)?;
    Ok(State::start(plan, cycle))
}
