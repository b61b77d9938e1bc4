//! Streams of trigger and fast commands that are accepted or not (document
//! 02, F-8): each refusal at the first pattern and at a later one, whole and
//! cut by the ends of lines, and what a refused line does to a stream.

use crate::pulses::{ending_with_a_byte, pulses, Pulses};
use crate::spaced::Sent::{self, Lv1};
use crate::spaced::{ALL, BCR, CAL, ECR, SYNC};
use crate::{code, Case, Random, Stream};

/// Zeros after which nothing is too close.
const FAR: usize = 12;

/// Name and input. What is said of them in comments begins with the number.
const LINES: [(&str, &[u8]); 30] = [
    // Accepted.
    ("empty-input", b""),
    ("line-feeds-only", b"\n\n\n"),
    ("zeros", b"0000\n00\n"),
    ("zeros-no-last-line-feed", b"0000\n00"),
    ("one-trigger", b"E8\n"),
    ("no-last-line-feed", b"0E80\n1D"),
    ("across-a-line", b"07\n40\n"),
    ("across-empty-lines", b"\n07\n\n\n40\n\n"),
    // 14, known at the end of the input only.
    ("cut-at-a-line-end", b"07\n"),
    ("cut-no-last-line-feed", b"E807"),
    ("cut-then-empty-lines", b"E807\n\n\n"),
    // 13: in one line, in two, in the last one without its line feed.
    ("unknown-at-once", b"A0\n"),
    ("unknown-across-a-line", b"E807\n00\nE8\n"),
    ("unknown-across-empty-lines", b"07\n\n\n00\n"),
    ("unknown-no-last-line-feed", b"E8\nE0"),
    ("unknown-ahead-of-lines", b"E8\nFF\nE8\nE8\n"),
    ("unknown-then-cut", b"F007\n"),
    // 15: BCR, 0, BCR; the second one's last bit in the next line.
    ("close-across-a-line", b"B0AC\n20\nE8\n"),
    ("close-no-last-line-feed", b"00B0AC20"),
    ("close-then-unknown", b"B0AC20FF\n"),
    ("unknown-then-close", b"FFB0AC20\n"),
    // A fault ahead of a line that is not fit is what is printed.
    ("unknown-ahead-of-a-wrong-line", b"A0\nx\n"),
    ("close-ahead-of-an-odd-line", b"B0AC20\n0\n"),
    // The line is what is printed: its bits are not judged.
    ("line-wrong-after-accepted", b"E8\nx\n"),
    ("line-wrong-with-unknown-bits", b"E8\nA0x\n"),
    ("line-odd-with-unknown-bits", b"A0A\n"),
    // So it is while a pattern is unfinished.
    ("line-wrong-inside-a-pattern", b"E807\ne8\n"),
    ("line-odd-inside-a-pattern", b"07\n4\n40\n"),
    ("line-wrong-inside-no-line-feed", b"07\nx"),
    ("line-odd-after-empty-lines", b"07\n\n\n0"),
];

pub fn cases() -> Vec<Case> {
    let golden = |(name, input): (&str, &[u8])| case(name, input).golden_if(true);
    let mut cases: Vec<Case> = LINES.into_iter().map(golden).collect();
    cases.extend(accepted());
    cases.extend(unknown());
    cases.extend(cut());
    cases.extend(too_close());
    cases.extend(long());
    cases
}

fn case(name: &str, input: impl Into<Vec<u8>>) -> Case {
    Case::new(format!("accept/{name}"), input)
}

fn stream(name: &str, stream: &Stream) -> Case {
    case(name, stream.lines())
}

fn name_of(command: Sent) -> &'static str {
    match command {
        Lv1 => "lv1",
        BCR => "bcr",
        ECR => "ecr",
        CAL => "cal",
        SYNC => "sync",
        Sent::Fast(_) => "fast",
    }
}

/// A byte a line.
fn bytes_as_lines(stream: &Stream) -> Vec<u8> {
    let line = |byte: &u8| format!("{byte:02X}\n").into_bytes();
    stream.bytes().iter().flat_map(line).collect()
}

/// Each command after each, with just the zeros asked.
fn every_pair() -> Pulses {
    let pairs = ALL
        .into_iter()
        .flat_map(|one| ALL.map(|other| [one, other]));
    pairs.fold(Pulses::new(), |pulses, [one, other]| {
        pulses.send(FAR, one).send(0, other)
    })
}

fn accepted() -> Vec<Case> {
    let mut cases = Vec::new();
    let pairs = every_pair().stream;
    cases.push(stream("every-pair", &pairs).golden_if(true));
    cases.push(case("every-pair-by-bytes", bytes_as_lines(&pairs)));
    let each = ALL.into_iter().fold(Pulses::new(), |p, c| p.send(1, c));
    cases.push(stream("each-command", &each.stream).golden_if(true));
    // The last bit of the stream is the command's.
    let to_the_end = ending_with_a_byte(&each.stream);
    cases.push(stream("each-command-to-the-end", &to_the_end).golden_if(true));
    for command in ALL {
        let first = command.add_to(Stream::new());
        let name = format!("first-{}", name_of(command));
        cases.push(stream(&name, &first));
        // At each place of a byte, a byte a line.
        let mut pulses = Pulses::new();
        for place in 0..8 {
            let ahead = pulses.stream.bits.len() + pulses.zeros_asked(command) + FAR;
            let more = FAR + (place + 8 - ahead % 8) % 8;
            pulses = pulses.send(more, command);
        }
        let name = format!("cut-by-lines-{}", name_of(command));
        cases.push(case(&name, bytes_as_lines(&pulses.stream)));
    }
    cases
}

/// Patterns that begin none of the five commands, however they go on.
const UNKNOWN: [&str; 12] = [
    "1010",
    "100",
    "1111",
    "110",
    "11100",
    "101111",
    "10111",
    "101100000",
    "101100011",
    "101101001",
    "10110101",
    // A Slow header, of EnDataTake.
    "10110101110000000",
];

/// First in the stream, and after a command, close and far.
fn unknown() -> Vec<Case> {
    let mut cases = Vec::new();
    for bits in UNKNOWN {
        let first = Stream::new().pattern(bits);
        cases.push(stream(&format!("unknown-{bits}"), &first).golden_if(true));
        for (zeros, how) in [(0, "close"), (FAR, "far")] {
            for command in [Lv1, BCR] {
                let ahead = command.add_to(Stream::new().zeros(3));
                let later = ahead.zeros(zeros).pattern(bits).zeros(FAR).lv1();
                let name = format!("unknown-{bits}-{how}-{}", name_of(command));
                cases.push(stream(&name, &later));
            }
        }
    }
    // Each bit of each command inverted, after a command and ahead of one.
    for command in ALL {
        for bit in 0..command.bits() {
            let mut hit = command.add_to(Stream::new());
            hit.bits[bit] = !hit.bits[bit];
            let later = Stream::new().lv1().zeros(5).raw(&hit.bits).zeros(FAR);
            let name = format!("hit-{}-{}", name_of(command), bit + 1);
            cases.push(stream(&name, &later.lv1()));
        }
    }
    cases
}

/// Each proper beginning of each command at the very end of the input.
fn cut() -> Vec<Case> {
    let mut cases = Vec::new();
    for command in [Lv1, BCR, SYNC] {
        let whole = command.add_to(Stream::new());
        for bits in 1..command.bits() {
            let begun = Stream::new().raw(&whole.bits[..bits]);
            let name = format!("cut-{}-{bits}", name_of(command));
            let first = ending_with_a_byte(&begun);
            cases.push(stream(&name, &first).golden_if(command == BCR));
            let later = Stream::new().ecr().zeros(3).raw(&begun.bits);
            let later = ending_with_a_byte(&later);
            cases.push(stream(&format!("{name}-later"), &later));
        }
    }
    // The cut one is too close all the same.
    let close = ending_with_a_byte(&Stream::new().bcr().pattern("1011"));
    cases.push(stream("cut-too-close", &close).golden_if(true));
    let close = ending_with_a_byte(&Stream::new().sync().pattern("1110"));
    cases.push(stream("cut-too-close-lv1", &close).golden_if(true));
    cases
}

/// Each entry of the timing table that asks for zeros, with each count fewer;
/// as the second pattern and as a later one.
fn too_close() -> Vec<Case> {
    let mut cases = Vec::new();
    for one in ALL {
        for other in ALL {
            for zeros in 0..one.zeros_ahead_of(other) {
                let pair = one.add_to(Stream::new()).zeros(zeros);
                let pair = other.add_to(pair);
                let name = format!("close-{}-{zeros}-{}", name_of(one), name_of(other));
                cases.push(stream(&name, &pair).golden_if(one == other || other == Lv1));
                let later = every_pair().zeros(FAR).stream.raw(&pair.bits).zeros(FAR);
                cases.push(stream(&format!("{name}-later"), &later.lv1()));
            }
        }
    }
    // A command that was hit asks for nothing: it is the fault itself.
    let hit = Stream::new().fast(code::BCR | code::ECR).bcr();
    cases.push(stream("close-after-a-bad-fast", &hit));
    cases
}

/// Bytes that a program reads at a time.
const BLOCK: usize = 65_536;

/// More than two blocks, or one, with commands across their edges; accepted,
/// and with each fault at the end. And places that take many digits.
fn long() -> Vec<Case> {
    let whole = blocks(2);
    let mut cases = Vec::new();
    for (name, end) in [
        ("accepted", ""),
        ("unknown", "11100000"),
        ("cut", "00000111"),
        ("close", "1011010000111010"),
    ] {
        let input = whole.clone().pattern(end).lines();
        cases.push(case(&format!("blocks-{name}"), input.clone()));
        let more = [&input[..], &whole.lines()[..]].concat();
        cases.push(case(&format!("blocks-{name}-and-more"), more));
    }
    // SYNC, 000, LV1, and a line that is not looked at.
    let close = blocks(1).sync().zeros(3).lv1().zeros(FAR);
    let close = [&close.lines()[..], b"x\n"].concat();
    cases.push(case("after-a-block", close));
    // A refused line behind so much.
    let refused = [&whole.lines()[..], b"07\nx\nA0\n"].concat();
    cases.push(case("line-wrong-after-blocks", refused));
    let zeros = ("0".repeat(64) + "\n").repeat(5_000);
    for (name, end) in [("zeros", ""), ("far", "00A0\n"), ("far-cut", "01")] {
        cases.push(case(&format!("long-{name}"), zeros.clone() + end));
    }
    cases
}

/// A stream of whole bytes that keeps the timing table and is just longer, as
/// digits, than so many blocks.
fn blocks(count: usize) -> Stream {
    let mut random = Random::new(0xF8 + count as u64);
    let mut stream = Stream::new();
    while stream.bits.len() / 4 <= count * BLOCK {
        let some = pulses(&mut random, 500).zeros(FAR).stream;
        stream = stream.raw(&some.bits);
    }
    ending_with_a_byte(&stream)
}
