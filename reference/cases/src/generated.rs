//! Generated streams, the same ones each time.

use crate::generate::{self, Addresses, Noise};
use crate::order_texts::{random_text, TextFlaw};
use crate::orders::random_orders;
use crate::pulses::{ending_with_a_byte, pulses, Flaw};
use crate::replies::{random_reply, ReplyFlaw};
use crate::spaced::spaced_hits;
use crate::{Case, Random, Stream};

/// How a stream is made.
#[derive(Clone, Copy)]
enum Recipe {
    /// Whole commands.
    Clean,
    /// The same with one bit in so many inverted.
    Flips(u64),
    /// Whole commands, and an LV1 with a bit hit now and then.
    FlippedLv1,
    /// Random bits.
    Noise,
}

const RECIPES: [Recipe; 9] = [
    Recipe::Clean,
    Recipe::Flips(10_000),
    Recipe::Flips(1_000),
    Recipe::Flips(300),
    Recipe::Flips(100),
    Recipe::Flips(30),
    Recipe::Flips(10),
    Recipe::Noise,
    Recipe::FlippedLv1,
];

/// The first `count` generated cases; each depends on its number only.
pub fn generated(count: u64) -> Vec<Case> {
    (0..count).map(case).collect()
}

fn case(number: u64) -> Case {
    let mut random = Random::new(0x5EED_0000 + number);
    let recipe = RECIPES[(number % RECIPES.len() as u64) as usize];
    let mut stream = match recipe {
        Recipe::Noise => {
            let begun = if random.bit() {
                Stream::new().en_data_take()
            } else {
                Stream::new()
            };
            begun.raw(&generate::bits(&mut random, 16_000))
        }
        Recipe::Clean | Recipe::Flips(_) => generate::commands(&mut random, 400),
        Recipe::FlippedLv1 => generate::flipped_commands(&mut random, 400),
    };
    if let Recipe::Flips(rate) = recipe {
        generate::flip_some(&mut stream, &mut random, rate);
    }
    let input = random_lines(&stream.bytes(), &mut random);
    Case::new(format!("generated/{number:03}"), input)
}

/// What the noisy streams have in turn. The cycles that are wrong leave most
/// bits as they were sent, or few.
const NOISES: [Noise; 5] = [
    Noise::Late,
    Noise::Any,
    Noise::Cycles(20),
    Noise::Cycles(4),
    Noise::Cycles(2),
];

/// The first `count` streams with noisy front-end groups (document 02, F-4);
/// each depends on its number only.
pub fn noisy(count: u64) -> Vec<Case> {
    (0..count).map(noisy_case).collect()
}

fn noisy_case(number: u64) -> Case {
    let mut random = Random::new(0xF4_5EED_0000 + number);
    let noise = NOISES[(number % NOISES.len() as u64) as usize];
    let stream = generate::noisy_commands(noise, &mut random, 150);
    let input = random_lines(&stream.bytes(), &mut random);
    Case::new(format!("noisy/{number:03}"), input)
}

/// The first `count` streams of commands crowded together (document 02, F-5),
/// every third with one bit in a hundred inverted; each depends on its number
/// only.
pub fn crowded(count: u64) -> Vec<Case> {
    (0..count).map(crowded_case).collect()
}

fn crowded_case(number: u64) -> Case {
    let mut random = Random::new(0xF5_5EED_0000 + number);
    let mut stream = generate::crowded_commands(&mut random, 300);
    if number % 3 == 2 {
        generate::flip_some(&mut stream, &mut random, 100);
    }
    let input = random_lines(&stream.bytes(), &mut random);
    // The golden and fixed cases are in a folder of that name.
    Case::new(format!("crowded-streams/{number:03}"), input)
}

/// The first `count` streams with several hits, spaced as document 02, F-13
/// asks: one item in so many in turn has one. Every ninth is out of RunMode.
/// Each depends on its number only.
pub fn hits(count: u64) -> Vec<Case> {
    (0..count).map(hits_case).collect()
}

const ONE_HIT_IN: [u64; 4] = [1, 2, 5, 20];

fn hits_case(number: u64) -> Case {
    let mut random = Random::new(0xF13_5EED_0000 + number);
    let one_in = ONE_HIT_IN[(number % ONE_HIT_IN.len() as u64) as usize];
    let hit = spaced_hits(&mut random, 300, one_in).damaged();
    let begun = match number % 9 {
        8 => Stream::new(),
        _ => Stream::new().en_data_take(),
    };
    let input = random_lines(&begun.raw(&hit.bits).bytes(), &mut random);
    Case::new(format!("hit-streams/{number:03}"), input)
}

/// The first `count` streams of a maker's pulse program (document 02, F-8):
/// with no flaw, and with each flaw in turn; now and then a line is refused.
/// Each depends on its number only.
pub fn pulsed(count: u64) -> Vec<Case> {
    (0..count).map(pulsed_case).collect()
}

fn pulsed_case(number: u64) -> Case {
    let mut random = Random::new(0xF8_5EED_0000 + number);
    let flaw = Flaw::ALL[(number % Flaw::ALL.len() as u64) as usize];
    let commands = [3, 20, 300][random.below(3) as usize];
    let sent = pulses(&mut random, commands);
    let stream = ending_with_a_byte(&flaw.put_into(&sent, &mut random));
    let mut input = random_lines(&stream.bytes(), &mut random);
    if random.one_in(8) {
        spoil(&mut input, &mut random);
    }
    Case::new(format!("pulse-streams/{number:03}"), input)
}

/// A wrong character, or a line that is odd or longer.
fn spoil(input: &mut Vec<u8>, random: &mut Random) {
    if input.is_empty() {
        return;
    }
    let place = random.below(input.len() as u64) as usize;
    match random.bit() {
        true => input[place] = b'x',
        false => drop(input.remove(place)),
    }
}

/// The first `count` inputs for `reply` (document 02, F-12): replies with no
/// flaw and with each in turn, of which fewer bits, all or more are expected;
/// now and then a line is refused, or would be if it were reached. Each depends
/// on its number only.
pub fn replied(count: u64) -> Vec<Case> {
    (0..count).map(replied_case).collect()
}

fn replied_case(number: u64) -> Case {
    const MOST: [u64; 4] = [8, 40, 300, 8_191];
    let mut random = Random::new(0xF12_5EED_0000 + number);
    let flaw = ReplyFlaw::ALL[(number % ReplyFlaw::ALL.len() as u64) as usize];
    let most = MOST[random.below(4) as usize];
    let sent = 1 + random.below(most);
    let stream = random_reply(flaw, sent as u32, &mut random);
    let mut input = random_lines(&stream.bytes(), &mut random);
    if random.one_in(5) {
        spoil(&mut input, &mut random);
    }
    let expected = match random.below(4) {
        0 => 1 + random.below(sent),
        1 => 1 + random.below(8_191),
        _ => sent,
    };
    // A folder of another name than the fixed ones have.
    Case::reply(format!("reply-streams/{number:03}"), expected, input)
}

/// The first `count` texts of orders (document 02, F-2): fit ones, and with
/// each flaw in turn. Each depends on its number only.
pub fn composed(count: u64) -> Vec<Case> {
    (0..count).map(composed_case).collect()
}

fn composed_case(number: u64) -> Case {
    let mut random = Random::new(0xF2_5EED_0000 + number);
    // Every third is fit.
    let flaw = match number % 3 {
        0 => TextFlaw::Nothing,
        _ => TextFlaw::ALL[(number / 3 % TextFlaw::ALL.len() as u64) as usize],
    };
    let count = [2, 12, 80][random.below(3) as usize];
    let orders = random_orders(&mut random, Addresses::DEFAULT, count);
    let text = random_text(&orders, flaw, &mut random);
    Case::new(format!("order-texts/{number:03}"), text)
}

/// Lines of random lengths, empty ones too; now and then no last line feed.
fn random_lines(bytes: &[u8], random: &mut Random) -> Vec<u8> {
    let mut lines = String::new();
    let mut rest = bytes;
    while !rest.is_empty() {
        let length = (random.below(33) as usize).min(rest.len());
        let (line, after) = rest.split_at(length);
        for byte in line {
            lines.push_str(&format!("{byte:02X}"));
        }
        lines.push('\n');
        rest = after;
    }
    if random.one_in(4) {
        lines.pop();
    }
    lines.into_bytes()
}
