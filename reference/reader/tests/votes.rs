//! The vote among the eight cycles of a front-end bit (document 02, F-4):
//! every group, in both commands, however its cycles are cut into calls.

mod common;

use cases::{fixed, noisy, Random, Stream};
use common::{rec, Reader};
use reader::group::Group;
use reader::{station, Recogniser, Record};

/// Field 3 of WrFrontEnd and RdFrontEnd.
const COMMANDS: [u8; 2] = [4, 5];

/// Cycles of a command ahead of Field 5.
const AHEAD: u64 = 17;

/// The cycles of a group, in the order in which they arrive.
fn cycles(group: u8) -> [bool; 8] {
    std::array::from_fn(|cycle| group & 0x80 >> cycle != 0)
}

/// The vote reckoned otherwise: the eight cycles, and the first once more, are
/// nine, and the middle one of them in order decides.
fn voted(group: u8) -> bool {
    let cycles = cycles(group);
    let mut nine = [&cycles[..], &cycles[..1]].concat();
    nine.sort();
    nine[4]
}

/// A front-end command with these groups.
fn frame(field3: u8, groups: &[u8]) -> Stream {
    Stream::new().groups(field3, groups)
}

/// A decoder whose CNT says so many data bits, with a tray that is full.
fn decoder(bits: usize) -> Reader {
    let mut reader = Reader::opened();
    reader.state.registers[5] = (bits << 3) as u16;
    reader.tray.fill(0xFF);
    reader
}

/// Bits as a frame's bytes.
fn packed(bits: impl Iterator<Item = bool>) -> Vec<u8> {
    Stream::new().raw(&bits.collect::<Vec<_>>()).bytes()
}

/// The record of a frame from cycle 0, whose data bits are counted.
fn record(field3: u8, groups: &[u8]) -> Record {
    let time = AHEAD + 8 * groups.len() as u64 - 1;
    let steady = groups.iter().all(|group| [0x00, 0xFF].contains(group));
    let flags = if steady { 0x01 } else { 0x11 };
    rec(time, 0x20 + field3, flags, groups.len() as u32)
}

/// What is held of groups inside a front-end frame.
fn held(reader: &Reader) -> Group {
    match reader.state.recogniser {
        Recogniser::Field5 { group, .. } => group,
        other => panic!("no frame under way: {other:?}"),
    }
}

/// "1 if five or more ones are among the eight cycles of its group, and 0 if
/// three or fewer are; four ones keep the first cycle's value."
#[test]
fn each_group_by_the_papers_sentence() {
    for field3 in COMMANDS {
        let mut seen = [[0; 2]; 9];
        for group in 0..=255 {
            let cycles = cycles(group);
            let ones = cycles.iter().filter(|&&bit| bit).count();
            let bit = (ones >= 5) || (ones == 4 && cycles[0]);
            assert_eq!(bit, voted(group), "{group:08b}");
            let mut reader = decoder(1);
            let records = reader.read(&frame(field3, &[group]));
            assert_eq!(records, [record(field3, &[group])], "{group:08b}");
            assert_eq!(reader.frames, [[u8::from(bit) << 7]], "{group:08b}");
            assert_eq!(reader.tray[1], 0xFF);
            seen[ones][usize::from(cycles[0])] += 1;
        }
        // How many groups have so many ones, by the first cycle.
        let first_0 = [1, 7, 21, 35, 35, 21, 7, 1, 0];
        let first_1 = [0, 1, 7, 21, 35, 35, 21, 7, 1];
        assert!((0..9).all(|ones| seen[ones] == [first_0[ones], first_1[ones]]));
    }
}

/// The same group at each place of a byte, among others.
#[test]
fn each_group_at_each_place_of_a_byte() {
    for field3 in COMMANDS {
        for group in 0..=255 {
            for place in 0..10 {
                let mut groups = [0xFF, 0, 0xFF, 0xFF, 0, 0, 0xFF, 0, 0, 0xFF];
                groups[place] = group;
                let mut reader = decoder(groups.len());
                let records = reader.read(&frame(field3, &groups));
                assert_eq!(records, [record(field3, &groups)]);
                let bits = packed(groups.into_iter().map(voted));
                assert_eq!(reader.frames, [bits], "{group:08b} at {place}");
            }
        }
    }
}

/// All groups, each twice: on its own and after other groups.
fn all_groups() -> Vec<u8> {
    let mixed = (0..=255).map(|group: u8| group.wrapping_mul(77).wrapping_add(13));
    (0..=255).chain(mixed).collect()
}

/// One-bit calls: what is held and what the tray has after every cycle.
#[test]
fn after_every_cycle() {
    let groups = all_groups();
    let mut random = Random::new(40);
    for field3 in COMMANDS {
        let stream = frame(field3, &groups);
        let bytes = stream.bytes();
        let mut reader = decoder(groups.len());
        reader.tray.fill_with(|| random.word() as u8);
        let mut tray = reader.tray.clone();
        assert_eq!(reader.read_part(&bytes, 0, AHEAD, 1), []);
        let mut unsteady = false;
        for (place, &group) in groups.iter().enumerate() {
            for cycle in 0..8 {
                let at = AHEAD + 8 * place as u64 + cycle;
                let is_last = at + 1 == stream.bits.len() as u64;
                let records = reader.read_part(&bytes, at, 1, 1);
                if cycle == 7 {
                    unsteady |= ![0x00, 0xFF].contains(&group);
                    let (byte, place) = (&mut tray[place / 8], place % 8);
                    if place == 0 {
                        *byte = 0;
                    }
                    let (others, bit) = (*byte & !(0x80 >> place), voted(group));
                    *byte = others | u8::from(bit) << (7 - place);
                }
                assert_eq!(reader.tray, tray, "cycle {at}");
                if is_last {
                    assert_eq!(records, [record(field3, &groups)]);
                    assert_eq!(reader.state.recogniser, Recogniser::IDLE);
                    continue;
                }
                assert_eq!(records, []);
                let bits = if cycle == 7 { 0 } else { group >> (7 - cycle) };
                assert_eq!(held(&reader), Group { bits, unsteady }, "cycle {at}");
            }
        }
        assert_eq!(reader.frames, [packed(groups.iter().map(|&g| voted(g)))]);
    }
}

/// A group whose cycles differ counts only when it is whole.
#[test]
fn unsteady_is_joined_in_the_eighth_cycle() {
    for field3 in COMMANDS {
        for group in 0..=255 {
            let bytes = frame(field3, &[group, 0x00]).bytes();
            let mut reader = decoder(2);
            reader.read_part(&bytes, 0, AHEAD, 1);
            for cycle in 0..8 {
                reader.read_part(&bytes, AHEAD + cycle, 1, 1);
                let unsteady = cycle == 7 && ![0x00, 0xFF].contains(&group);
                assert_eq!(held(&reader).unsteady, unsteady, "{group:08b} {cycle}");
            }
        }
    }
}

/// Each group between two steady ones, in two calls and in one-bit calls.
#[test]
fn each_group_cut_at_every_cycle() {
    for field3 in COMMANDS {
        for group in 0..=255 {
            let groups = [0xFF, group, 0x00];
            let stream = frame(field3, &groups);
            let bytes = stream.bytes();
            let count = stream.bits.len() as u64;
            let mut whole = decoder(groups.len());
            let records = whole.read(&stream);
            assert_eq!(records, [record(field3, &groups)]);
            assert_eq!(whole.frames, [[0x80 | u8::from(voted(group)) << 6]]);
            for cut in 0..=count {
                let mut reader = decoder(groups.len());
                let mut parts = reader.read_part(&bytes, 0, cut, 1);
                parts.extend(reader.read_part(&bytes, cut, count - cut, 1));
                assert_eq!((&parts, &reader), (&records, &whole), "cut at {cut}");
            }
            let mut reader = decoder(groups.len());
            let one = |bit| reader.read_part(&bytes, bit, 1, 1);
            let parts: Vec<Record> = (0..count).flat_map(one).collect();
            assert_eq!((&parts, &reader), (&records, &whole), "{group:08b}");
        }
    }
}

/// All groups in one frame, cut at every cycle.
#[test]
fn all_groups_cut_at_every_cycle() {
    let groups = all_groups();
    for field3 in COMMANDS {
        let stream = frame(field3, &groups);
        let bytes = stream.bytes();
        let count = stream.bits.len() as u64;
        let mut whole = decoder(groups.len());
        let records = whole.read(&stream);
        assert_eq!(records, [record(field3, &groups)]);
        assert_eq!(whole.frames, [packed(groups.iter().map(|&g| voted(g)))]);
        for cut in 0..=count {
            let mut reader = decoder(groups.len());
            let mut parts = reader.read_part(&bytes, 0, cut, 1);
            parts.extend(reader.read_part(&bytes, cut, count - cut, 1));
            assert_eq!((&parts, &reader), (&records, &whole), "cut at {cut}");
        }
    }
}

/// Whatever is held of an unfinished group, the rest of it decides with it.
#[test]
fn a_group_held_by_any_sound_state() {
    for field3 in COMMANDS {
        for received in 0..8 {
            for bits in 0..1_u32 << received {
                for rest in 0..1_u32 << (8 - received) {
                    for unsteady in [false, true] {
                        let mut reader = decoder(1);
                        reader.state.recogniser = Recogniser::Field5 {
                            field3,
                            field4: 0,
                            held: 0,
                            received,
                            group: Group {
                                bits: bits as u8,
                                unsteady,
                            },
                        };
                        let group = (bits << (8 - received) | rest) as u8;
                        let records = reader.read(&Stream::new().number(rest, 8 - received));
                        let steady = [0x00, 0xFF].contains(&group) && !unsteady;
                        let flags = if steady { 0x01 } else { 0x11 };
                        let time = u64::from(7 - received);
                        assert_eq!(records, [rec(time, 0x20 + field3, flags, 1)]);
                        assert_eq!(reader.frames, [[u8::from(voted(group)) << 7]]);
                    }
                }
            }
        }
    }
}

/// A bit is stored, and a byte zeroed, in the tray that is lent in the
/// group's eighth cycle.
#[test]
fn the_tray_of_the_eighth_cycle() {
    for field3 in COMMANDS {
        for place in 0..16 {
            let mut groups = [0x00; 16];
            groups[place] = 0b0111_1100;
            let bytes = frame(field3, &groups).bytes();
            let mut reader = decoder(groups.len());
            let eighth = AHEAD + 8 * place as u64 + 7;
            reader.read_part(&bytes, 0, eighth - 7, 1);
            let before = reader.tray.clone();
            reader.read_part(&bytes, eighth - 7, 7, 1);
            assert_eq!(reader.tray, before);
            // Another tray: its other bits stay, but for those of a new byte.
            reader.tray.fill(0x55);
            reader.read_part(&bytes, eighth, 1, 1);
            let mut tray = vec![0x55; before.len()];
            let bit = 0x80 >> (place % 8);
            tray[place / 8] = if place % 8 == 0 { bit } else { 0x55 | bit };
            assert_eq!(reader.tray, tray, "place {place}");
        }
    }
}

/// "A bench with slow drivers shows a wrong first cycle in most groups while
/// the rest are good."
#[test]
fn slow_drivers() {
    let frame_bits = Stream::new().number(0xA5_5A_D2, 24).bits;
    for field3 in COMMANDS {
        for wrong in 1..=3 {
            let mut stream = Stream::new().front_end(field3, &frame_bits);
            for place in 0..24 {
                for cycle in 0..wrong {
                    stream.bits[AHEAD as usize + 8 * place + cycle] ^= true;
                }
            }
            let mut reader = decoder(24);
            let records = reader.read(&stream);
            assert_eq!(records, [rec(208, 0x20 + field3, 0x11, 24)]);
            assert_eq!(reader.frames, [[0xA5, 0x5A, 0xD2]], "{wrong} wrong");
        }
    }
}

/// The longest frame, of random groups, with control bits.
#[test]
fn the_longest_frame_of_random_groups() {
    let mut random = Random::new(41);
    for field3 in COMMANDS {
        let groups: Vec<u8> = (0..8_247).map(|_| random.word() as u8).collect();
        let mut reader = decoder(0);
        reader.state.registers[5] = 0xFFFF;
        let records = reader.read(&frame(field3, &groups));
        let time = AHEAD + 65_976 - 1;
        assert_eq!(records, [rec(time, 0x20 + field3, 0x11, 0x0038_1FFF)]);
        assert_eq!(reader.frames, [packed(groups.iter().map(|&g| voted(g)))]);
        assert_eq!(reader.tray[1_031], 0xFF);
    }
}

/// Nothing of a group goes into the next frame, nor into a WrReceiver.
#[test]
fn each_frame_starts_with_no_group() {
    for field3 in COMMANDS {
        for group in 0..=255 {
            let mut reader = decoder(1);
            let stream = frame(field3, &[group]).raw(&frame(9 - field3, &[0xF0]).bits);
            let stream = stream.raw(&frame(field3, &[0x00]).bits);
            let stream = stream.wr_register(5, 1).slow(6, 0).pattern("00001111");
            let records = reader.read(&stream);
            let flags: Vec<u8> = records.iter().map(|record| record.flags).collect();
            let first = record(field3, &[group]).flags;
            assert_eq!(flags, [first, 0x11, 0x01, 0x01, 0x01], "{group:08b}");
            let bit = u8::from(voted(group)) << 7;
            assert_eq!(reader.frames, [[bit], [0x80], [0x00], [0x0F]]);
        }
    }
}

/// Nor does a WrReceiver hold a group, whatever went before.
#[test]
fn a_wr_receiver_holds_no_group() {
    for field3 in COMMANDS {
        let mut reader = decoder(1);
        reader.read(&frame(field3, &[0xF0]).wr_register(5, 2).slow(6, 0));
        assert_eq!(held(&reader), Group::default());
        let bytes = [0xB1, 0xFF];
        for bit in 0..15 {
            assert_eq!(reader.read_part(&bytes, bit, 1, 1), []);
            assert_eq!(held(&reader), Group::default(), "{bit}");
        }
        assert_eq!(reader.read_part(&bytes, 15, 1, 1).len(), 1);
    }
}

/// What the station program prints.
fn listed(input: &[u8]) -> String {
    let mut listing = Vec::new();
    station(input, &mut listing).expect("no failure");
    String::from_utf8(listing).expect("text")
}

/// The frames of a fixed case, as they are printed.
fn frames_of(name: &str) -> Vec<String> {
    let case = fixed().into_iter().find(|case| case.name == name);
    let listing = listed(&case.unwrap_or_else(|| panic!("no case {name}")).input);
    let frames = listing.lines().filter_map(|line| line.strip_prefix('>'));
    frames.map(str::to_string).collect()
}

fn digits(bytes: &[u8]) -> String {
    bytes.iter().map(|byte| format!("{byte:02X}")).collect()
}

/// The cases for comparison have the frames that their names promise.
#[test]
fn the_cases_of_votes_are_what_they_should_be() {
    for kind in ["wr", "rd"] {
        for ones in 0..=8 {
            for first in [0, 1] {
                let of = |group: &u8| group.count_ones() == ones && group >> 7 == first;
                let groups: Vec<u8> = (0..=255).filter(of).collect();
                if groups.is_empty() {
                    continue;
                }
                let bit = ones > 4 || (ones == 4 && first == 1);
                let bits = packed(groups.iter().map(|_| bit));
                let name = format!("votes/{kind}-{ones}-ones-first-{first}");
                assert_eq!(frames_of(&name), [digits(&bits)], "{name}");
            }
        }
        let frames = |name: &str| frames_of(&format!("votes/{kind}-{name}"));
        assert_eq!(frames("slow-drivers"), ["A56AD5"]);
        let all = packed((0..=255).map(voted));
        assert_eq!(frames("all-groups"), [digits(&all)]);
        assert_eq!(frames("control"), ["AA80"]);
        assert_eq!(frames("8247")[0].len(), 2 * 1_031);
        assert_eq!(frames("seven-of-eight"), ["C0"]);
        let cut = frames("cut-by-lines");
        assert_eq!(cut, vec![cut[0].clone(); 8]);
        // Up to four ones with a first 0, and from four with a first 1 on.
        assert_eq!(cut[0], "00FF");
    }
}

/// The noisy streams have many frames, unsteady and steady.
#[test]
fn the_noisy_cases_have_frames() {
    let (mut unsteady, mut steady) = (0, 0);
    for case in noisy(25) {
        for line in listed(&case.input).lines() {
            let columns: Vec<&str> = line.split(' ').collect();
            match columns[..] {
                [_, "24" | "25", "11", _] => unsteady += 1,
                [_, "24" | "25", "01", _] => steady += 1,
                _ => {}
            }
        }
    }
    assert!(unsteady > 500 && steady > 50, "{unsteady} {steady}");
}
