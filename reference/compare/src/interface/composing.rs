//! Composing a stream from a list of orders (document 02, F-2): plans, kinds,
//! every field and count of zeros just inside and just outside, outputs of each
//! length, and random lists, fit and with flaws.

use super::call::{Call, Compose};
use super::checker::Checker;
use super::layout::{
    verdict, OK, ORDER_WORDS, STREAM_TOO_LONG, TOO_FEW_ZEROS, WRONG_ORDER, WRONG_PLAN,
};
use super::opening::{Numbers, FIT_PLANS, WRONG_PLANS};
use super::prefilled;
use super::states::PLANS;
use super::streams::addresses;
use cases::orders::{at, lent, random_orders, stream_of, Flaw};
use cases::Random;
use reader::Plan;
use std::collections::BTreeMap;
use std::io;

/// Random calls.
const CALLS: u64 = 16_000;

const SEED: u64 = 0x1F4C_EF02_0000;

/// The default plan's numbers.
const DEFAULT: Numbers = [0x07FF, 0, 2, 5];

/// The words of an order.
type Words = [u64; ORDER_WORDS];

/// The kinds that can be ordered.
const KINDS: [u64; 15] = [
    0x01, 0x11, 0x12, 0x14, 0x18, 0x20, 0x21, 0x22, 0x23, 0x24, 0x25, 0x26, 0x28, 0x29, 0x2A,
];

pub fn check(checker: &mut Checker) -> io::Result<()> {
    let mut cases = Cases {
        checker,
        random: Random::new(SEED),
    };
    cases.plans()?;
    cases.kinds()?;
    cases.fields()?;
    cases.counts_by_cnt()?;
    cases.frames()?;
    cases.pairs()?;
    cases.lengths()?;
    cases.zeros()?;
    cases.precedence()?;
    random_calls(checker)?;
    large(checker)
}

fn kind(kind: u64) -> Words {
    [kind, 0, 0, 0, 0, 0]
}

/// The bits of an order that holds nothing but its kind.
fn bits_of(kind: u64) -> u64 {
    match kind {
        0x01 => 5,
        0x11..=0x18 => 9,
        0x20 | 0x21 => 17 + 16,
        0x22 | 0x23 => 17 + 27,
        0x2A => 17 + 4,
        _ => 17,
    }
}

/// WrRegister to an address.
fn write(address: u64, value: u64) -> Words {
    [0x20, 0, address, value, 0, 0]
}

/// A frame of so many bits from a byte on.
fn frame(kind: u64, first: u64, bits: u64) -> Words {
    [kind, 0, 0, 0, first, bits]
}

fn with_zeros(mut order: Words, zeros: u64) -> Words {
    order[at::ZEROS] = zeros;
    order
}

const LV1: Words = [0x01, 0, 0, 0, 0, 0];
const BCR: Words = [0x11, 0, 0, 0, 0, 0];

/// A call by a plan's numbers.
fn call(plan: Numbers, orders: Vec<u64>, frames: Vec<u8>, output: Vec<u8>) -> Call {
    let [mask, csr, feen, cnt] = plan;
    Call::Compose(Compose {
        mask,
        csr,
        feen,
        cnt,
        orders,
        frames,
        output,
    })
}

/// Cases that are written down, whose numbers are too.
struct Cases<'a> {
    checker: &'a mut Checker,
    random: Random,
}

impl Cases<'_> {
    /// A call in the default plan, with room enough, that is answered so.
    fn answered(&mut self, orders: &[Words], frames: &[u8], answer: u64) -> io::Result<()> {
        let output = prefilled::bytes(&mut self.random, 70_000);
        self.in_output(orders, frames, output, answer)
    }

    fn in_output(
        &mut self,
        orders: &[Words],
        frames: &[u8],
        output: Vec<u8>,
        answer: u64,
    ) -> io::Result<()> {
        let name = format!("orders {orders:X?}, {} bytes", output.len());
        let call = call(DEFAULT, orders.concat(), frames.to_vec(), output);
        self.checker.check_number(name, answer, &call)
    }

    /// The same for a few bytes, which all short lists need.
    fn short(&mut self, orders: &[Words], answer: u64) -> io::Result<()> {
        let output = prefilled::bytes(&mut self.random, 40);
        self.in_output(orders, &[0x5A, 0xC3, 0x96], output, answer)
    }

    /// Those that open, and those that do not, whatever the orders are.
    fn plans(&mut self) -> io::Result<()> {
        let lists: [&[Words]; 4] = [
            &[],
            &[LV1],
            &[kind(0x1F)],
            &[with_zeros(LV1, u64::MAX), BCR, BCR],
        ];
        let all = FIT_PLANS.map(|plan| (plan, true)).into_iter();
        for (plan, fit) in all.chain(WRONG_PLANS.map(|plan| (plan, false))) {
            let numbers = [0, 5 << 8, WRONG_ORDER, verdict(TOO_FEW_ZEROS, 2)];
            for (orders, number) in lists.into_iter().zip(numbers) {
                let answer = if fit { number } else { WRONG_PLAN };
                let name = format!("orders {orders:X?} by plan {plan:X?}");
                let output = prefilled::bytes(&mut self.random, 9);
                let call = call(plan, orders.concat(), vec![1, 2], output);
                self.checker.check_number(name, answer, &call)?;
            }
            // CNT where the plan has it, and nowhere else.
            for address in 0..16 {
                let fits = address == plan[3];
                let orders = [write(address, 1), frame(0x26, 0, 8 * u64::from(fits))];
                let answer = match fit {
                    true => verdict(OK, 33 + 17 + 8 * u64::from(fits)),
                    false => WRONG_PLAN,
                };
                let name = format!("orders {orders:X?} by plan {plan:X?}");
                let output = prefilled::bytes(&mut self.random, 9);
                let call = call(plan, orders.concat(), vec![0x5A], output);
                self.checker.check_number(name, answer, &call)?;
            }
        }
        Ok(())
    }

    fn kinds(&mut self) -> io::Result<()> {
        let beyond = (9..64).map(|high| 1 << high);
        let high = beyond.flat_map(|high| [high, high | 0x01, high | 0x20, high | 0x28]);
        for number in (0..=0x1FF).chain(high).chain([u64::MAX]) {
            let answer = match KINDS.contains(&number) {
                true => verdict(OK, 5 + bits_of(number)),
                false => verdict(WRONG_ORDER, 1),
            };
            self.short(&[LV1, kind(number)], answer)?;
        }
        Ok(())
    }

    /// Every bit of every word but the zeros, used and unused, one at a time.
    fn fields(&mut self) -> io::Result<()> {
        for number in KINDS {
            for place in [at::ADDRESS, at::VALUE, at::FRAME, at::BITS] {
                for bit in 0..=64 {
                    let mut order = kind(number);
                    order[place] = 1_u64.checked_shl(bit).unwrap_or(u64::MAX);
                    let name = format!("order {order:X?}");
                    let output = prefilled::bytes(&mut self.random, 12);
                    let orders = [LV1, order, LV1].concat();
                    let call = call(DEFAULT, orders, vec![0x5A], output);
                    self.checker.check(name, &call)?;
                }
            }
        }
        Ok(())
    }

    /// Counts of frame bits about the one that each CNT asks for.
    fn counts_by_cnt(&mut self) -> io::Result<()> {
        let frames = prefilled::bytes(&mut self.random, 8_200);
        for cnt in [
            0, 1, 2, 7, 8, 9, 0xFF, 0x1FFF, 0x2000, 0xE000, 0xE001, 0xFFF8, 0xFFFF,
        ] {
            let front_end: u64 = cnt / 8 + cnt % 8 * 8;
            let receiver = cnt % 8_192 * 8;
            for (kind, count) in [(0x24, front_end), (0x25, front_end), (0x26, receiver)] {
                let cycles = if kind == 0x26 { count } else { 8 * count };
                let first = self.random.below(9);
                for (bits, fit) in [
                    (count, true),
                    (count + 1, false),
                    (count.wrapping_sub(1), false),
                    (count + 8, false),
                    (count + 65_536, false),
                    (count | 1 << 32, false),
                    (count | 1 << 63, false),
                ] {
                    let orders = [write(5, cnt), frame(kind, first, bits), LV1];
                    let answer = match fit {
                        true => verdict(OK, 33 + 17 + cycles + 5),
                        false => verdict(WRONG_ORDER, 1),
                    };
                    self.answered(&orders, &frames, answer)?;
                }
            }
        }
        Ok(())
    }

    /// Frames at the end of what is lent and past it.
    fn frames(&mut self) -> io::Result<()> {
        for length in [0_u64, 1, 2, 9] {
            let frames = prefilled::bytes(&mut self.random, length as usize);
            for bits in [0, 1, 7, 8, 9, 8 * length, 8 * length + 1] {
                let near = (0..4).map(|less| length.wrapping_sub(less));
                let far = [length + 1, 1 << 61, 1 << 63, u64::MAX, u64::MAX - 1];
                for first in near.chain(far) {
                    let lent = 8 * length.saturating_sub(first);
                    let answer = match bits <= lent {
                        true => verdict(OK, 33 + 17 + 8 * bits),
                        false => verdict(WRONG_ORDER, 1),
                    };
                    let orders = [write(5, bits << 3), frame(0x24, first, bits)];
                    let output = prefilled::bytes(&mut self.random, 100);
                    self.in_output(&orders, &frames, output, answer)?;
                }
            }
        }
        Ok(())
    }

    /// Every kind after every kind, with few zeros between.
    fn pairs(&mut self) -> io::Result<()> {
        for one in KINDS {
            for other in KINDS {
                let asked = match (one, other == 0x01) {
                    (0x11, false) => 2,
                    (0x12, false) => 1,
                    (0x18, true) => 4,
                    _ => 0,
                };
                for zeros in 0..=5 {
                    let answer = match zeros < asked {
                        true => verdict(TOO_FEW_ZEROS, 1),
                        false => verdict(OK, bits_of(one) + zeros + bits_of(other)),
                    };
                    let orders = [kind(one), with_zeros(kind(other), zeros)];
                    self.short(&orders, answer)?;
                }
            }
        }
        Ok(())
    }

    /// Lists of each count of words, in outputs of each length.
    fn lengths(&mut self) -> io::Result<()> {
        let orders = [LV1, kind(0x28), with_zeros(LV1, 3), kind(0x14)];
        let bits = [0, 5, 22, 30, 39];
        for words in 0..=orders.len() * ORDER_WORDS {
            let whole = words / ORDER_WORDS;
            for length in 0..8 {
                let answer = match words % ORDER_WORDS {
                    0 if bits[whole] <= 8 * length => verdict(OK, bits[whole]),
                    0 => STREAM_TOO_LONG,
                    _ => verdict(WRONG_ORDER, whole as u64),
                };
                let name = format!("{words} words of orders, {length} bytes");
                let output = prefilled::bytes(&mut self.random, length as usize);
                let orders = orders.concat()[..words].to_vec();
                let call = call(DEFAULT, orders, Vec::new(), output);
                self.checker.check_number(name, answer, &call)?;
            }
        }
        Ok(())
    }

    /// Zeros about the room, 2^48 and 2^64, at one order and at several.
    fn zeros(&mut self) -> io::Result<()> {
        let long = STREAM_TOO_LONG;
        let room = 40 * 8;
        for (zeros, answer) in [
            (room - 5, verdict(OK, room)),
            (room - 4, long),
            (room, long),
            ((1 << 48) - 5, long),
            ((1 << 48) - 4, long),
            (1 << 61, long),
            (1 << 63, long),
            (u64::MAX - 5, long),
            (u64::MAX - 4, long),
            (u64::MAX, long),
        ] {
            let far = with_zeros(LV1, zeros);
            self.short(&[far], answer)?;
            self.short(&[LV1, far], long)?;
            self.short(&[far, far], long)?;
            self.short(&[far, far, BCR, kind(0x1F)], verdict(WRONG_ORDER, 3))?;
            self.short(
                &[far, with_zeros(BCR, zeros), BCR],
                verdict(TOO_FEW_ZEROS, 2),
            )?;
            // Sums that wrap to a few bits.
            let rest = with_zeros(LV1, zeros.wrapping_neg());
            self.short(&[far, rest], long)?;
        }
        // 2^64 eight times is 2^67, in bytes 2^64.
        let far = with_zeros(LV1, u64::MAX - 4);
        self.short(&[far; 8], long)?;
        self.short(&[far; 300], long)
    }

    /// Which of several numbers is answered.
    fn precedence(&mut self) -> io::Result<()> {
        let unknown = kind(0x2F);
        let far = with_zeros(LV1, u64::MAX);
        let unfit = frame(0x26, 0, 8);
        for (orders, answer) in [
            (&[BCR, unknown][..], verdict(WRONG_ORDER, 1)),
            (&[BCR, unfit], verdict(WRONG_ORDER, 1)),
            (&[BCR, write(16, 0)], verdict(WRONG_ORDER, 1)),
            (&[BCR, BCR, unknown], verdict(TOO_FEW_ZEROS, 1)),
            (&[unknown, BCR, BCR], verdict(WRONG_ORDER, 0)),
            (&[far, unknown], verdict(WRONG_ORDER, 1)),
            (&[far, BCR, BCR], verdict(TOO_FEW_ZEROS, 2)),
            (&[far, write(5, 1), unfit, unfit], STREAM_TOO_LONG),
            (
                &[far, write(5, 1), unfit, kind(0x29), unfit],
                verdict(WRONG_ORDER, 4),
            ),
        ] {
            self.short(orders, answer)?;
            let name = format!("orders {orders:X?} and no output");
            let call = call(DEFAULT, orders.concat(), vec![0x5A], Vec::new());
            self.checker.check_number(name, answer, &call)?;
        }
        Ok(())
    }
}

/// A random list with a flaw or two, or none, by a plan that opens.
pub fn random_call(random: &mut Random, number: u64) -> Compose {
    let plan = match random.bit() {
        true => PLANS[random.below(PLANS.len() as u64) as usize],
        false => random_plan(random),
    };
    let most = match random.below(64) {
        0 => 400,
        1..=8 => 60,
        _ => 12,
    };
    let count = random.below(most) as usize;
    let orders = random_orders(random, addresses(plan), count);
    let mut lent = lent(&orders, random);
    let flaws = Flaw::ALL.len() as u64;
    Flaw::ALL[(number % flaws) as usize].put_into(&mut lent, &orders, random);
    if random.one_in(6) {
        let another = Flaw::ALL[random.below(flaws) as usize];
        another.put_into(&mut lent, &orders, random);
    }
    let bits = stream_of(&orders).bits.len() as u64;
    let length = output_length(bits, random);
    let output = prefilled::bytes(random, length);
    Compose {
        mask: plan.mask.into(),
        csr: plan.csr.into(),
        feen: plan.feen.into(),
        cnt: plan.cnt.into(),
        orders: lent.orders,
        frames: lent.frames,
        output,
    }
}

/// Just enough for so many bits, more, or too few.
fn output_length(bits: u64, random: &mut Random) -> usize {
    let needed = bits.div_ceil(8);
    let length = match random.below(8) {
        0..=3 => needed,
        4 | 5 => needed + 1 + random.below(40),
        6 => needed.saturating_sub(1),
        _ => random.below(needed + 1),
    };
    length as usize
}

fn random_plan(random: &mut Random) -> Plan {
    let mut addresses: Vec<u8> = (0..16).collect();
    let mut any = || addresses.swap_remove(random.below(addresses.len() as u64) as usize);
    let [csr, feen, cnt] = [any(), any(), any()];
    let mask = random.word() as u16 | 1 << csr | 1 << feen | 1 << cnt;
    Plan {
        mask,
        csr,
        feen,
        cnt,
    }
}

fn random_calls(checker: &mut Checker) -> io::Result<()> {
    let mut counts = BTreeMap::new();
    for number in 0..CALLS {
        let mut random = Random::new(SEED + 0x1_0000 + number);
        let mut compose = random_call(&mut random, number);
        if random.one_in(24) {
            // A plan that does not open: an address twice, or one too wide.
            let wide = [compose.csr, compose.cnt | 16, compose.cnt | 256, u64::MAX];
            compose.cnt = wide[random.below(4) as usize];
        }
        let expected = checker.check(format!("orders {number}"), &Call::Compose(compose))?;
        *counts.entry(expected.answer & 0xFF).or_insert(0) += 1;
    }
    // That each is among them many times is a check of its own.
    for number in [OK, WRONG_PLAN, WRONG_ORDER, TOO_FEW_ZEROS, STREAM_TOO_LONG] {
        let count: u64 = counts.get(&number).copied().unwrap_or(0);
        let fault = (count < CALLS / 40).then(|| format!("only {count} calls are answered so"));
        checker.report(format!("orders with number {number}"), fault)?;
    }
    Ok(())
}

/// Many orders, the longest frames, and a mebibyte and more of zeros.
fn large(checker: &mut Checker) -> io::Result<()> {
    many_orders(checker)?;
    longest_frames(checker)?;
    for length in [1 << 20, 3 << 20] {
        let room = 8 * length as u64;
        for (zeros, answer) in [(room - 5, verdict(OK, room)), (room - 4, STREAM_TOO_LONG)] {
            let name = format!("{zeros} zeros, {length} bytes");
            let orders = with_zeros(LV1, zeros).to_vec();
            one_large(checker, &name, orders, Vec::new(), length, answer)?;
        }
    }
    Ok(())
}

fn one_large(
    checker: &mut Checker,
    name: &str,
    orders: Vec<u64>,
    frames: Vec<u8>,
    length: usize,
    answer: u64,
) -> io::Result<()> {
    let output = prefilled::bytes(&mut Random::new(SEED + 1), length);
    let call = call(DEFAULT, orders, frames, output);
    checker.check_number(format!("large orders, {name}"), answer, &call)
}

fn many_orders(checker: &mut Checker) -> io::Result<()> {
    const COUNT: u64 = 100_000;
    const BITS: u64 = 5 * COUNT;
    const BYTES: usize = BITS as usize / 8;
    let triggers = LV1.repeat(COUNT as usize);
    let and = |more: &[u64]| [&triggers[..], more].concat();
    let cut = triggers[..triggers.len() - 1].to_vec();
    let close = [BCR, BCR].concat();
    for (name, orders, length, answer) in [
        ("triggers", and(&[]), BYTES, verdict(OK, BITS)),
        (
            "triggers and room",
            and(&[]),
            BYTES + 999,
            verdict(OK, BITS),
        ),
        ("a byte short", and(&[]), BYTES - 1, STREAM_TOO_LONG),
        (
            "the last is wrong",
            and(&kind(0x27)),
            BYTES + 99,
            verdict(WRONG_ORDER, COUNT),
        ),
        (
            "the last is too close",
            and(&close),
            BYTES + 99,
            verdict(TOO_FEW_ZEROS, COUNT + 1),
        ),
        (
            "the last is cut",
            cut,
            BYTES,
            verdict(WRONG_ORDER, COUNT - 1),
        ),
    ] {
        one_large(checker, name, orders, Vec::new(), length, answer)?;
    }
    Ok(())
}

/// CNT FFFF, one frame of each kind.
fn longest_frames(checker: &mut Checker) -> io::Result<()> {
    const BITS: u64 = 33 + 3 * 17 + 2 * 65_976 + 65_528;
    const BYTES: usize = BITS.div_ceil(8) as usize;
    let frames = prefilled::bytes(&mut Random::new(SEED + 2), 8_300);
    let orders = [
        write(5, 0xFFFF),
        frame(0x24, 3, 8_247),
        frame(0x25, 7, 8_247),
        frame(0x26, 100, 65_528),
    ];
    for (name, length, answer) in [
        ("longest frames", BYTES, verdict(OK, BITS)),
        ("longest frames, a byte short", BYTES - 1, STREAM_TOO_LONG),
    ] {
        one_large(
            checker,
            name,
            orders.concat(),
            frames.clone(),
            length,
            answer,
        )?;
    }
    Ok(())
}
