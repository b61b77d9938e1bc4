//! Drivers whose library composes in a way that is wrong, or right, for the
//! tests of the comparison through the C interface. The file's name says what
//! is wrong. They make the call that composes, and no other.

#![forbid(unsafe_code)]

use compare::interface::call::Compose;
use compare::interface::layout::{verdict, OK, ORDER_WORDS, STREAM_TOO_LONG, WRONG_PLAN};
use reader::{compose, Plan};
use std::io::{self, Read, Write};
use std::path::Path;

/// The function's number in a request.
const COMPOSE: u64 = 8;

/// Places of an order's words.
const KIND: usize = 0;
const ZEROS: usize = 1;
const ADDRESS: usize = 2;
const VALUE: usize = 3;

fn word(input: &mut impl Read) -> io::Result<u64> {
    let mut bytes = [0; 8];
    input.read_exact(&mut bytes)?;
    Ok(u64::from_le_bytes(bytes))
}

/// The length of a slice; whether its pointer is NULL does not matter here.
fn length(input: &mut impl Read) -> io::Result<usize> {
    let length = word(input)?;
    word(input)?;
    Ok(length as usize)
}

fn bytes(input: &mut impl Read) -> io::Result<Vec<u8>> {
    let mut bytes = vec![0; length(input)?];
    input.read_exact(&mut bytes)?;
    Ok(bytes)
}

fn request(input: &mut impl Read) -> io::Result<Compose> {
    Ok(Compose {
        mask: word(input)?,
        csr: word(input)?,
        feen: word(input)?,
        cnt: word(input)?,
        orders: (0..length(input)?)
            .map(|_| word(input))
            .collect::<io::Result<_>>()?,
        frames: bytes(input)?,
        output: bytes(input)?,
    })
}

fn plan(call: &Compose) -> Option<Plan> {
    Some(Plan {
        mask: call.mask.try_into().ok()?,
        csr: call.csr.try_into().ok()?,
        feen: call.feen.try_into().ok()?,
        cnt: call.cnt.try_into().ok()?,
    })
}

fn right(call: &mut Compose) -> u64 {
    let Some(plan) = plan(call) else {
        return WRONG_PLAN;
    };
    match compose(plan, &call.orders, &call.frames, &mut call.output) {
        Ok(bits) => verdict(OK, bits),
        Err(why) => verdict(why.number().into(), why.order()),
    }
}

/// With each order changed before it is composed.
fn changed(call: &mut Compose, change: impl Fn(&mut [u64])) -> u64 {
    let lent = call.orders.clone();
    call.orders.chunks_exact_mut(ORDER_WORDS).for_each(change);
    let answer = right(call);
    call.orders = lent;
    answer
}

fn answer(way: &str, call: &mut Compose) -> u64 {
    match way {
        "counts-zeros-in-32-bits" => changed(call, |order| order[ZEROS] &= 0xFFFF_FFFF),
        "drops-high-bits" => changed(call, |order| {
            order[ADDRESS] &= 0xF;
            order[VALUE] &= match order[KIND] {
                0x20 => 0xFFFF,
                0x22 => 0x7FF_FFFF,
                _ => 0xF,
            };
        }),
        "takes-kinds-by-their-low-byte" => changed(call, |order| order[KIND] &= 0xFF),
        "sends-a-bad-slow" => changed(call, |order| {
            if order[KIND] == 0x2F {
                order[KIND] = 0x28;
            }
        }),
        "asks-zeros-of-no-slow" => changed(call, |order| {
            if (0x20..0x30).contains(&order[KIND]) {
                order[ZEROS] = order[ZEROS].max(2);
            }
        }),
        _ => after(way, call),
    }
}

/// With the answer or the output changed afterwards.
fn after(way: &str, call: &mut Compose) -> u64 {
    let room = 8 * call.output.len() as u64;
    let is_long = |order: &[u64]| order.get(ZEROS).is_some_and(|&zeros| zeros > room);
    let long = call.orders.chunks(ORDER_WORDS).any(is_long);
    let answer = right(call);
    let (number, bits) = (answer & 0xFF, answer >> 8);
    let used = bits.div_ceil(8) as usize;
    match way {
        "clears-the-rest" if number == OK => call.output[used..].fill(0),
        "fills-up-with-ones" if number == OK && bits % 8 != 0 => {
            call.output[used - 1] |= 0xFF >> (bits % 8);
        }
        "writes-when-refused" if number != OK => call.output.fill(0),
        "writes-when-too-long" if number == STREAM_TOO_LONG => call.output.fill(0xE8),
        "counts-bytes" if number == OK => return verdict(OK, used as u64 * 8),
        "counts-orders-from-1" if (9..11).contains(&number) => return answer + 0x100,
        "tells-the-length-first" if long && number > WRONG_PLAN => return STREAM_TOO_LONG,
        _ => {}
    }
    answer
}

fn main() -> io::Result<()> {
    let name = std::env::args().next().unwrap_or_default();
    let way = Path::new(&name).file_name().unwrap_or_default();
    let way = way.to_string_lossy().into_owned();
    let (mut input, mut output) = (io::stdin().lock(), io::stdout().lock());
    // The end of the requests.
    while let Ok(COMPOSE) = word(&mut input) {
        let mut call = request(&mut input)?;
        let answer = answer(&way, &mut call);
        output.write_all(&answer.to_le_bytes())?;
        output.write_all(&call.output)?;
        output.flush()?;
    }
    Ok(())
}
