//! Malformed images, and every word of an image at many values.

use super::call::Call;
use super::checker::Checker;
use super::fit;
use super::image::{image, uses, Image};
use super::layout::{at, largest, name, IMAGE_WORDS, LAYOUT, OK, RECOGNISER, UNSOUND};
use cases::Random;
use std::io;

pub fn check(checker: &mut Checker) -> io::Result<()> {
    let mut random = Random::new(0x3A1F);
    for (phase, state) in fit::states_by_both_plans() {
        let image = image(&state);
        lengths(checker, &phase, &image, &mut random)?;
        widths(checker, &phase, &image, &mut random)?;
        old_layout(checker, &phase, &image, &mut random)?;
        unused(checker, &phase, &image, &mut random)?;
        sweep(checker, &phase, &image, &mut random)?;
    }
    let mut random = Random::new(0x3A_1FF5);
    for (phase, state) in fit::states_by_both_plans() {
        let image = image(&state);
        layout_2(checker, &phase, &image, &mut random)?;
        earlier_kinds(checker, &phase, &image, &mut random)?;
    }
    Ok(())
}

fn lengths(
    checker: &mut Checker,
    phase: &str,
    image: &Image,
    random: &mut Random,
) -> io::Result<()> {
    for length in [0, 1, IMAGE_WORDS - 1, IMAGE_WORDS, IMAGE_WORDS + 1] {
        let mut take = fit::call(image, random);
        take.image.resize(length, 0);
        let number = if length == IMAGE_WORDS { OK } else { UNSOUND };
        let name = format!("malformed, {phase}, an image of {length} words");
        checker.check_number(name, number, &Call::Take(take))?;
    }
    Ok(())
}

/// Each word beyond its width, also where its low part would be fit.
fn widths(
    checker: &mut Checker,
    phase: &str,
    image: &Image,
    random: &mut Random,
) -> io::Result<()> {
    for place in 0..IMAGE_WORDS {
        let word = image[place];
        let high = [8, 16, 32, 48, 63].map(|bit| word | 1 << bit);
        let edges = [largest(place).wrapping_add(1), 0, 1, 2, u64::MAX];
        for word in edges.into_iter().chain(high) {
            let beyond = word > largest(place) || (place == at::LAYOUT && word != LAYOUT);
            if !beyond {
                continue;
            }
            let mut take = fit::call(image, random);
            take.image[place] = word;
            let name = format!("malformed, {phase}, {} {word:#X}", name(place));
            checker.check_number(name, UNSOUND, &Call::Take(take))?;
        }
    }
    Ok(())
}

/// An image of layout 1, which had a group's first bit where its bits are.
fn old_layout(
    checker: &mut Checker,
    phase: &str,
    image: &Image,
    random: &mut Random,
) -> io::Result<()> {
    for first in [0, 1] {
        let mut take = fit::call(image, random);
        take.image[at::LAYOUT] = 1;
        take.image[at::GROUP] = first;
        let name = format!("malformed, {phase}, layout 1 with first bit {first}");
        checker.check_number(name, UNSOUND, &Call::Take(take))?;
    }
    Ok(())
}

/// An image of layout 2, which had no earlier record: two words fewer, with
/// the registers in their place. And this layout's with the other number or
/// the other length.
fn layout_2(
    checker: &mut Checker,
    phase: &str,
    image: &Image,
    random: &mut Random,
) -> io::Result<()> {
    let earlier = at::EARLIER_TIME..=at::EARLIER_KIND;
    let mut shorter = image.to_vec();
    shorter.drain(earlier);
    let with = |words: &[u64], layout| {
        let mut words = words.to_vec();
        words[at::LAYOUT] = layout;
        words
    };
    let padded = [&shorter[..], &[0, 0]].concat();
    for (name, words) in [
        ("layout 2", with(&shorter, 2)),
        ("layout 2 with two words behind it", with(&padded, 2)),
        (
            "layout 3 without the earlier record",
            with(&shorter, LAYOUT),
        ),
        ("layout 2 with the earlier record", with(image, 2)),
        ("layout 1 with the earlier record", with(image, 1)),
        ("layout 4", with(image, 4)),
    ] {
        let take = fit::call(&words, random);
        let name = format!("malformed, {phase}, {name}");
        checker.check_number(name, UNSOUND, &Call::Take(take))?;
    }
    Ok(())
}

/// Every byte is a kind, known or not; no larger number is one.
fn earlier_kinds(
    checker: &mut Checker,
    phase: &str,
    image: &Image,
    random: &mut Random,
) -> io::Result<()> {
    let beyond = [256, 257, 0x111, 0xFFFF, 1 << 16 | 0x11, 1 << 32, u64::MAX];
    for kind in (0..=255).chain(beyond) {
        let mut take = fit::call(image, random);
        take.image[at::EARLIER_KIND] = kind;
        let number = if kind > largest(at::EARLIER_KIND) {
            UNSOUND
        } else {
            OK
        };
        let name = format!("malformed, {phase}, earlier kind {kind:#X}");
        checker.check_number(name, number, &Call::Take(take))?;
    }
    Ok(())
}

/// Words that the phase does not use make no image malformed or unsound, and
/// change nothing that means something.
fn unused(
    checker: &mut Checker,
    phase: &str,
    image: &Image,
    random: &mut Random,
) -> io::Result<()> {
    for place in RECOGNISER.filter(|&place| !uses(image, place)) {
        for (word, count) in [(1, 0), (largest(place), 0), (largest(place), 3)] {
            let mut take = fit::call(image, random);
            take.image[place] = word;
            take.count = count;
            let name = format!("unused word, {phase}, {} {word:#X}", name(place));
            checker.check_number(name, OK, &Call::Take(take))?;
        }
    }
    Ok(())
}

/// Every word at values about all widths; the separate reader decides.
fn sweep(checker: &mut Checker, phase: &str, image: &Image, random: &mut Random) -> io::Result<()> {
    let edges = [
        0, 1, 2, 3, 4, 15, 16, 31, 32, 127, 128, 255, 256, 65_535, 65_536,
    ];
    let far = [32, 48, 63].map(|bit| 1 << bit);
    for place in 0..IMAGE_WORDS {
        for word in edges.into_iter().chain(far) {
            let mut take = fit::call(image, random);
            take.image[place] = word;
            let name = format!("sweep, {phase}, {} {word:#X}", name(place));
            checker.check(name, &Call::Take(take))?;
        }
    }
    Ok(())
}
