//! Front-end bits whose eight cycles differ (document 02, F-4): every group,
//! by its ones and its first cycle; slow drivers; groups cut by the ends of
//! lines; and a last group that wants its eighth cycle.

use crate::{code, generate, Case, Random, Stream};

const KINDS: [(&str, u8); 2] = [("wr", code::WR_FRONT_END), ("rd", code::RD_FRONT_END)];

/// Those by their ones that have golden files: the first cycle decides, or is
/// just outvoted.
const GOLDEN: [&str; 4] = [
    "wr-3-ones-first-1",
    "wr-4-ones-first-0",
    "rd-4-ones-first-1",
    "rd-5-ones-first-0",
];

pub fn cases() -> Vec<Case> {
    KINDS.into_iter().flat_map(of_kind).collect()
}

fn of_kind((kind, field3): (&str, u8)) -> Vec<Case> {
    let case = |name: &str, stream: &Stream| Case::stream(format!("votes/{kind}-{name}"), stream);
    let mut cases = by_ones(kind, field3);
    let all: Vec<u8> = (0..=255).collect();
    let all = frame(field3, &all).lv1();
    let slow = slow_drivers(field3).lv1();
    cases.push(case("slow-drivers", &slow).golden_if(kind == "wr"));
    cases.push(case("all-groups", &all).golden_if(kind == "wr"));
    cases.push(case("control", &control(field3)));
    cases.push(case("8247", &longest(field3)));
    cases.push(case("seven-of-eight", &seven_of_eight(field3)));
    let lines = cut_by_lines(field3);
    cases.push(Case::new(format!("votes/{kind}-cut-by-lines"), lines));
    cases
}

/// A frame of these groups, each a data bit.
fn frame(field3: u8, groups: &[u8]) -> Stream {
    let cnt = (groups.len() << 3) as u16;
    Stream::new().wr_register(5, cnt).groups(field3, groups)
}

/// For each count of ones and each first cycle a frame of all such groups.
fn by_ones(kind: &str, field3: u8) -> Vec<Case> {
    let mut cases = Vec::new();
    for ones in 0..=8 {
        for first in 0..=1 {
            let groups = groups_with(ones, first);
            if groups.is_empty() {
                continue;
            }
            let name = format!("{kind}-{ones}-ones-first-{first}");
            let golden = GOLDEN.contains(&&name[..]);
            let stream = frame(field3, &groups).lv1();
            cases.push(Case::stream(format!("votes/{name}"), &stream).golden_if(golden));
        }
    }
    cases
}

/// All groups of so many ones, with this first cycle.
fn groups_with(ones: u32, first: u8) -> Vec<u8> {
    let fits = |group: &u8| group.count_ones() == ones && group >> 7 == first;
    (0..=255).filter(fits).collect()
}

/// One group for each count of ones and each first cycle.
fn one_of_each() -> Vec<u8> {
    let groups = (0..=8).flat_map(|ones| [groups_with(ones, 0), groups_with(ones, 1)]);
    let some = groups.enumerate();
    some.filter_map(|(turn, groups)| groups.get(turn * 5 % groups.len().max(1)).copied())
        .collect()
}

/// A line that follows its driver a cycle late: the first cycle of a group
/// still has the bit before, which differs from its own in most groups.
fn slow_drivers(field3: u8) -> Stream {
    let bits = Stream::new().number(0x00A5_6AD5, 24).bits;
    frame(field3, &generate::late_groups(&bits))
}

/// Ten bits, eight of them control bits.
fn control(field3: u8) -> Stream {
    let groups = [0x7F, 0x80, 0xF0, 0x0F, 0x1F, 0xE0, 0xAA, 0x55, 0xFE, 0x01];
    let stream = Stream::new().wr_register(5, 2 << 3 | 1);
    stream.groups(field3, &groups).lv1()
}

/// The longest frame, of any groups.
fn longest(field3: u8) -> Stream {
    let mut random = Random::new(0xF4);
    let groups: Vec<u8> = (0..8_247).map(|_| random.word() as u8).collect();
    let stream = Stream::new().wr_register(5, 0xFFFF);
    stream.groups(field3, &groups).lv1()
}

/// A whole frame, and one that ends with the input a cycle ahead of its
/// record.
fn seven_of_eight(field3: u8) -> Stream {
    let groups = [0xF0, 0x1F];
    let twice = frame(field3, &groups).groups(field3, &groups);
    let count = twice.bits.len() - 1;
    let ahead = count.wrapping_neg() % 8;
    Stream::new().zeros(ahead).raw(&twice.bits[..count])
}

/// A byte a line, with a frame at each place of its first byte, so that lines
/// end after each cycle of a group.
fn cut_by_lines(field3: u8) -> Vec<u8> {
    let frame = frame(field3, &one_of_each());
    let mut stream = Stream::new();
    for place in 0..8 {
        let ahead = (place + 8 - stream.bits.len() % 8) % 8;
        stream = stream.zeros(ahead).raw(&frame.bits);
    }
    let line = |byte: &u8| format!("{byte:02X}\n").into_bytes();
    stream.bytes().iter().flat_map(line).collect()
}
