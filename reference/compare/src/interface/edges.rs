//! Each limit of a taking call just inside and just outside.

use super::call::{Call, Take};
use super::checker::Checker;
use super::fit;
use super::image::image;
use super::layout::{at, CLOCK_OVER, INPUT_BYTES, OK, RESULT_WORDS, WRONG_BUFFERS, WRONG_RANGE};
use super::prefilled;
use cases::Random;
use reader::limits::{CLOCK_LIMIT, STORE_WORDS, TRAY_BYTES};
use std::io;

/// A call, what is special about it and the number that it is answered with.
type Edge = (String, u64, Take);

pub fn check(checker: &mut Checker) -> io::Result<()> {
    let mut random = Random::new(0xED6E);
    for (phase, state) in fit::states() {
        let fit = fit::call(&image(&state), &mut random);
        let mut edges = buffers(&fit);
        edges.extend(lists(&fit, &mut random));
        edges.extend(ranges(&fit));
        edges.extend(clocks(&fit));
        check_all(checker, &phase, edges)?;
        // A length at a time: they take much room.
        for length in long_lengths() {
            check_all(checker, &phase, inputs(&fit, length, &mut random))?;
        }
    }
    // In one state only, as they take long.
    let fit = fit::call(&fit::hunting(), &mut random);
    for length in long_lengths() {
        check_all(checker, "any length", past(&fit, length, &mut random))?;
    }
    Ok(())
}

fn check_all(checker: &mut Checker, phase: &str, edges: Vec<Edge>) -> io::Result<()> {
    for (name, number, take) in edges {
        let name = format!("edge, {phase}, {name}");
        checker.check_number(name, number, &Call::Take(take))?;
    }
    Ok(())
}

fn changed(fit: &Take, change: impl FnOnce(&mut Take)) -> Take {
    let mut take = fit.clone();
    change(&mut take);
    take
}

/// Accepted exactly at one length.
fn number_at(length: usize, right: usize) -> u64 {
    if length == right {
        OK
    } else {
        WRONG_BUFFERS
    }
}

fn buffers(fit: &Take) -> Vec<Edge> {
    let mut edges = Vec::new();
    for length in [0, 1, STORE_WORDS - 1, STORE_WORDS, STORE_WORDS + 1] {
        let take = changed(fit, |take| take.store.resize(length, 0xFFFF_FFFF));
        let number = number_at(length, STORE_WORDS);
        edges.push((format!("a store of {length} words"), number, take));
    }
    for length in [0, 1, TRAY_BYTES - 1, TRAY_BYTES, TRAY_BYTES + 1] {
        let take = changed(fit, |take| take.tray.resize(length, 0x5A));
        let number = number_at(length, TRAY_BYTES);
        edges.push((format!("a tray of {length} bytes"), number, take));
    }
    for length in 0..=5 {
        let take = changed(fit, |take| take.result.resize(length, 77));
        let number = number_at(length, RESULT_WORDS);
        edges.push((format!("a result of {length} words"), number, take));
    }
    edges
}

/// The first free word at and past the end of lists of each length.
fn lists(fit: &Take, random: &mut Random) -> Vec<Edge> {
    let mut edges = Vec::new();
    for length in 0..12 {
        let end = length as u64;
        let past = [end + 1, end + 2, 1 << 32, 1 << 61, u64::MAX];
        for free in (0..=end).chain(past) {
            let words = prefilled::words(random, length);
            let take = changed(fit, |take| (take.list, take.free) = (words, free));
            let number = if free <= end { OK } else { WRONG_BUFFERS };
            let name = format!("free word {free} of a list of {length}");
            edges.push((name, number, take));
        }
    }
    edges
}

/// By the input's bytes and the range, in numbers that no sum leaves.
fn range_number(length: usize, first: u64, count: u64) -> u64 {
    let end = u128::from(first) + u128::from(count);
    if length <= INPUT_BYTES && end <= 8 * length as u128 {
        OK
    } else {
        WRONG_RANGE
    }
}

/// A call with another input and range.
fn range(fit: &Take, input: &[u8], first: u64, count: u64) -> Edge {
    let take = changed(fit, |take| {
        (take.input, take.first, take.count) = (input.to_vec(), first, count);
    });
    let length = input.len();
    let name = format!("{count} bits from {first} of {length} bytes");
    (name, range_number(length, first, count), take)
}

/// A long input, with ranges at its start and at its end. Where all bits are
/// 0, a list of few words takes the whole of one.
fn inputs(fit: &Take, length: usize, random: &mut Random) -> Vec<Edge> {
    let bits = length as u64 * 8;
    let zeros = vec![0; length];
    let ends = [(0, 0), (0, 9), (3, 100), (bits - 100, 100), (bits, 0)];
    let some = ends.map(|(first, count)| {
        let input = prefilled::bytes(random, length);
        range(fit, &input, first, count)
    });
    let whole = [(0, bits), (7, bits - 7)];
    let whole = whole.map(|(first, count)| range(fit, &zeros, first, count));
    some.into_iter().chain(whole).collect()
}

/// Lengths about the limit, and about the one of document 01, up to which
/// calls answer as before document 02, F-6.
fn long_lengths() -> impl Iterator<Item = usize> {
    (65_535..=65_537).chain(INPUT_BYTES - 1..=INPUT_BYTES + 2)
}

/// A long input, with ranges past its end by one bit and by far.
fn past(fit: &Take, length: usize, random: &mut Random) -> Vec<Edge> {
    let bits = length as u64 * 8;
    let input = prefilled::bytes(random, length);
    let by_one = [(0, bits + 1), (bits - 100, 101), (bits, 1), (bits + 1, 0)];
    let past = by_one.into_iter().chain(far(bits));
    past.map(|(first, count)| range(fit, &input, first, count))
        .collect()
}

/// A first bit or a count near 2^64. Most sums would wrap to 0, or to the
/// input's end.
fn far(bits: u64) -> [(u64, u64); 9] {
    const FAR: u64 = u64::MAX;
    [
        (0, FAR),
        (1, FAR),
        (8, FAR - 7),
        (bits, bits.wrapping_neg()),
        (FAR, 0),
        (FAR, 1),
        (FAR, FAR),
        (FAR - 7, 8),
        (FAR - 7, bits + 8),
    ]
}

/// Ranges of short inputs that end at the last bit, one past it and beyond
/// all numbers.
fn ranges(fit: &Take) -> Vec<Edge> {
    let mut edges = Vec::new();
    for length in [0_usize, 1, 40] {
        let bits = length as u64 * 8;
        let middle = bits / 2 + bits % 3;
        let firsts = [0, 1, middle, bits, bits + 1, bits + 8, 1 << 61, 1 << 63];
        for first in firsts.into_iter().chain([u64::MAX - 1, u64::MAX]) {
            let rest = bits.saturating_sub(first);
            let wraps = first.wrapping_neg();
            let counts = [0, 1, rest, rest + 1, wraps, wraps.wrapping_add(bits)];
            for count in counts.into_iter().chain([1 << 61, 1 << 63, u64::MAX]) {
                edges.push(range(fit, &fit.input[..length], first, count));
            }
        }
    }
    edges
}

/// Ranges that end at the last cycle and one past it, with a base long ago
/// and one at the next cycle.
fn clocks(fit: &Take) -> Vec<Edge> {
    let mut edges = Vec::new();
    for count in [0_u64, 1, 2, 7, 200] {
        for left in [0, 1, 2, count, count + 1, count.saturating_sub(1)] {
            let next = CLOCK_LIMIT - left;
            for base in [fit.image[at::BASE], next] {
                let take = changed(fit, |take| {
                    take.count = count;
                    (take.image[at::NEXT], take.image[at::BASE]) = (next, base);
                });
                let number = if count <= left { OK } else { CLOCK_OVER };
                let name = format!("{count} bits with {left} cycles left, base {base}");
                edges.push((name, number, take));
            }
        }
    }
    edges
}
