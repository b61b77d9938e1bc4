//! The images of states, and the cases of the interface, without a driver.

use cases::generate::{bits, commands_at, flip_some};
use cases::{Random, Stream};
use compare::interface::call::{Call, Compose, Open, ReadReply, Take};
use compare::interface::difference::{difference, reply_bytes};
use compare::interface::expected::{expected, Expected};
use compare::interface::image::{image, is_inside_wr_receiver, state, uses, Image};
use compare::interface::layout::{self, at, largest, IMAGE_WORDS, LAYOUT, RECOGNISER};
use compare::interface::states::{random_cycle, random_state, EARLIER_KINDS, PLANS};
use compare::interface::streams::addresses;
use compare::interface::{
    accepting, checker, composing, crowding, fit, hits, large, prefilled, replies, votes,
};
use compare::tally::Tally;
use reader::limits::{input_fits, CLOCK_LIMIT, RECORD_WORDS, STORE_WORDS, TRAY_BYTES};
use reader::listing::push_record;
use reader::record::{flag, kind};
use reader::{accept, compose, hex_line, open, recogniser, slow, sound, take};
use reader::{DataBits, Ending, Order, Plan, Recogniser, Record, State};
use std::collections::{BTreeMap, BTreeSet};
use std::path::Path;

/// The C header of the repository.
const HEADER: &str = concat!(env!("CARGO_MANIFEST_DIR"), "/../../include/kernelstill.h");

/// The numbers that the header defines, by name without its first part.
fn in_header() -> BTreeMap<String, u64> {
    let header = std::fs::read_to_string(HEADER).expect("the header is there");
    let mut numbers = BTreeMap::new();
    for line in header.lines() {
        let Some(defined) = line.strip_prefix("#define KERNELSTILL_") else {
            continue;
        };
        // The name alone is the guard against a second reading.
        let Some((name, rest)) = defined.split_once(' ') else {
            continue;
        };
        // A text, which is compared with other files' (version.rs); and macros
        // of a value's parts, which the driver in C and the Python tests hold.
        if name == "VERSION" || name.contains('(') {
            continue;
        }
        let text = rest.split("/*").next().unwrap_or(rest).trim();
        let number = number(text).unwrap_or_else(|| panic!("{name} is {text:?}"));
        let other = numbers.insert(name.to_string(), number);
        assert_eq!(other, None, "{name} is defined twice");
    }
    numbers
}

/// A number of the header: decimal, hexadecimal or a power of 2.
fn number(text: &str) -> Option<u64> {
    if let Some(power) = text.strip_prefix("(UINT64_C(1) << ") {
        return Some(1 << power.strip_suffix(')')?.parse::<u32>().ok()?);
    }
    match text.strip_prefix("0x") {
        Some(digits) => u64::from_str_radix(digits, 16).ok(),
        None => text.parse().ok(),
    }
}

/// The same numbers as the reader and this package have them.
fn in_reader() -> BTreeMap<String, u64> {
    let places = [
        "LAYOUT",
        "MASK",
        "CSR",
        "FEEN",
        "CNT",
        "NEXT",
        "PHASE",
        "SHIFT",
        "COMMAND",
        "ADDRESS",
        "COUNT",
        "HELD",
        "GROUP",
        "UNSTEADY",
        "RUN_MODE",
        "L1ID",
        "BASE",
        "WLV1",
        "WFST",
        "WSLW",
        "EARLIER_TIME",
        "EARLIER_KIND",
    ];
    let places = places.into_iter().zip(0..);
    let blocks = [
        ("REGISTERS", at::REGISTERS as u64),
        ("WRITES", at::WRITES as u64),
        ("READS", at::READS as u64),
    ];
    let places = places
        .chain(blocks)
        .map(|(name, place)| (format!("AT_{name}"), place));
    let kinds = kinds()
        .into_iter()
        .map(|(name, kind)| (format!("KIND_{name}"), kind.into()));
    let numbers = [limits(), refusals(), results(), flags()].concat();
    let numbers = numbers
        .into_iter()
        .map(|(name, number)| (name.to_string(), number));
    places.chain(kinds).chain(numbers).collect()
}

fn limits() -> Vec<(&'static str, u64)> {
    let Plan {
        mask,
        csr,
        feen,
        cnt,
    } = Plan::DEFAULT;
    vec![
        ("LAYOUT", LAYOUT),
        ("IMAGE_WORDS", IMAGE_WORDS as u64),
        ("STORE_WORDS", STORE_WORDS as u64),
        ("TRAY_BYTES", TRAY_BYTES as u64),
        ("RESULT_WORDS", layout::RESULT_WORDS as u64),
        ("INPUT_BYTES", layout::INPUT_BYTES as u64),
        ("RECORD_WORDS", RECORD_WORDS as u64),
        ("ORDER_WORDS", Order::WORDS as u64),
        ("RECORD_LINE_BYTES", layout::RECORD_LINE_BYTES as u64),
        ("LINE_BYTES", layout::LINE_BYTES as u64),
        ("REPLY_DATA_BITS", DataBits::MOST),
        ("REPLY_BYTES", longest_reply().bytes() as u64),
        ("CLOCK_LIMIT", CLOCK_LIMIT),
        ("DEFAULT_MASK", mask.into()),
        ("DEFAULT_CSR", csr.into()),
        ("DEFAULT_FEEN", feen.into()),
        ("DEFAULT_CNT", cnt.into()),
    ]
}

fn longest_reply() -> DataBits {
    DataBits::new(DataBits::MOST).expect("the most are fit")
}

fn refusals() -> Vec<(&'static str, u64)> {
    vec![
        ("OK", layout::OK),
        ("WRONG_PLAN", layout::WRONG_PLAN),
        ("WRONG_CYCLE", layout::WRONG_CYCLE),
        ("UNSOUND", layout::UNSOUND),
        ("WRONG_BUFFERS", layout::WRONG_BUFFERS),
        ("WRONG_RANGE", layout::WRONG_RANGE),
        ("CLOCK_OVER", layout::CLOCK_OVER),
        ("WRONG_CHARACTER", layout::WRONG_CHARACTER),
        ("WRONG_LENGTH", layout::WRONG_LENGTH),
        ("WRONG_ORDER", layout::WRONG_ORDER),
        ("TOO_FEW_ZEROS", layout::TOO_FEW_ZEROS),
        ("STREAM_TOO_LONG", layout::STREAM_TOO_LONG),
        ("UNKNOWN_PATTERN", layout::UNKNOWN_PATTERN),
        ("CUT_PATTERN", layout::CUT_PATTERN),
        ("PATTERN_TOO_CLOSE", layout::PATTERN_TOO_CLOSE),
        ("WRONG_BIT_COUNT", layout::WRONG_BIT_COUNT),
        ("BUFFER_TOO_SMALL", layout::BUFFER_TOO_SMALL),
    ]
}

/// The places of a result, in the order in which it is compared, how a taking
/// call ends, and what is said of a reply.
fn results() -> Vec<(&'static str, u64)> {
    vec![
        ("RESULT_BITS", 0),
        ("RESULT_RECORDS", 1),
        ("RESULT_ENDING", 2),
        ("DONE", layout::DONE),
        ("FRAME", layout::FRAME),
        ("LIST_FULL", layout::LIST_FULL),
        ("REPLY_WHOLE", layout::WHOLE),
        ("REPLY_NO_HEADER", layout::NO_HEADER),
        ("REPLY_CUT_SHORT", layout::CUT_SHORT),
    ]
}

fn flags() -> Vec<(&'static str, u64)> {
    vec![
        ("FLAG_ACTED", flag::ACTED_ON.into()),
        ("FLAG_FLIP", flag::FLIP.into()),
        ("FLAG_SENT", flag::SENT.into()),
        ("FLAG_MISSING", flag::MISSING.into()),
        ("FLAG_UNSTEADY", flag::UNSTEADY.into()),
        ("FLAG_TOO_CLOSE", flag::TOO_CLOSE.into()),
    ]
}

fn kinds() -> [(&'static str, u8); 17] {
    [
        ("LV1", kind::LV1),
        ("BCR", kind::FAST + recogniser::BCR),
        ("ECR", kind::FAST + recogniser::ECR),
        ("CAL", kind::FAST + recogniser::CAL),
        ("SYNC", kind::FAST + recogniser::SYNC),
        ("BAD_FAST", kind::BAD_FAST),
        ("WR_REGISTER", kind::SLOW + slow::WR_REGISTER),
        ("RD_REGISTER", kind::SLOW + slow::RD_REGISTER),
        ("WR_FIFO", kind::SLOW + slow::WR_FIFO),
        ("RD_FIFO", kind::SLOW + slow::RD_FIFO),
        ("WR_FRONT_END", kind::SLOW + slow::WR_FRONT_END),
        ("RD_FRONT_END", kind::SLOW + slow::RD_FRONT_END),
        ("WR_RECEIVER", kind::SLOW + slow::WR_RECEIVER),
        ("EN_DATA_TAKE", kind::SLOW + slow::EN_DATA_TAKE),
        ("GLOBAL_RESET_MCC", kind::SLOW + slow::GLOBAL_RESET_MCC),
        ("GLOBAL_RESET_FE", kind::SLOW + slow::GLOBAL_RESET_FE),
        ("BAD_SLOW", kind::BAD_SLOW),
    ]
}

#[test]
fn all_numbers_of_the_header_are_the_readers() {
    assert_eq!(in_header(), in_reader());
}

#[test]
fn the_lengths_of_inputs_and_lines_are_the_readers() {
    assert!(input_fits(layout::INPUT_BYTES) && !input_fits(layout::INPUT_BYTES + 1));
    let longest = hex_line(&[b'F'; 2 * layout::LINE_BYTES]).expect("a line");
    assert_eq!(longest.len(), layout::LINE_BYTES);
    assert!(hex_line(&[b'F'; 2 * layout::LINE_BYTES + 2]).is_err());
    for words in [[0, 0], [u64::MAX, u64::MAX]] {
        let mut line = Vec::new();
        push_record(&mut line, &Record::from_words(words));
        assert_eq!(line.len(), layout::RECORD_LINE_BYTES);
    }
}

/// States on the way through a random stream.
fn states_of_a_stream(random: &mut Random) -> Vec<State> {
    let plan = PLANS[random.below(PLANS.len() as u64) as usize];
    let cycle = random_cycle(random).min(1 << 40);
    let mut stream = commands_at(addresses(plan), random, 12);
    let tail = bits(random, 50);
    stream = stream.raw(&tail);
    flip_some(&mut stream, random, 60);

    let bytes = stream.bytes();
    let mut states = vec![open(plan, cycle).1];
    let (mut store, mut tray) = (vec![0; STORE_WORDS], vec![0; TRAY_BYTES]);
    for bit in 0..stream.bits.len() as u64 {
        let state = states[states.len() - 1].clone();
        states.push(take_bit(state, &bytes, bit, &mut store, &mut tray));
    }
    states
}

/// Takes one bit, and checks how the call ended.
fn take_bit(state: State, bytes: &[u8], bit: u64, store: &mut [u32], tray: &mut [u8]) -> State {
    let mut list = [0; RECORD_WORDS];
    let answer = take(state, bytes, bit, 1, store, tray, &mut list, 0);
    assert_eq!(answer.bits_taken, 1);
    let is_frame = match answer.records_written {
        0 => {
            assert_eq!(list, [0; RECORD_WORDS]);
            false
        }
        _ => Record::from_words(list).frame_bits().is_some(),
    };
    let ending = if is_frame {
        Ending::Frame
    } else {
        Ending::Done
    };
    assert_eq!(answer.ending, ending);
    answer.state
}

#[test]
fn images_of_states_from_streams_are_well_formed_and_lead_back() {
    let mut random = Random::new(71);
    let mut phases = [0; 5];
    for _ in 0..175 {
        for passed in states_of_a_stream(&mut random) {
            let image = image(&passed);
            phases[image[at::PHASE] as usize] += 1;
            assert_eq!(image[at::LAYOUT], LAYOUT);
            assert!((0..IMAGE_WORDS).all(|place| image[place] <= largest(place)));
            assert_eq!(state(&image), Some(passed));
        }
    }
    assert!(phases.iter().all(|&count| count > 500), "{phases:?}");
}

#[test]
fn images_of_random_sound_states_lead_back() {
    let mut random = Random::new(72);
    for number in 0..24_000 {
        let made = random_state(&mut random, PLANS[number % PLANS.len()]);
        assert!(sound(&made), "{made:?}");
        assert_eq!(state(&image(&made)), Some(made));
    }
}

#[test]
fn words_that_the_phase_does_not_use_are_zero_and_not_looked_at() {
    let mut random = Random::new(73);
    for number in 0..6_000 {
        let made = random_state(&mut random, PLANS[number % PLANS.len()]);
        let words = image(&made);
        let mut filled = words;
        for place in RECOGNISER.filter(|&place| !uses(&words, place)) {
            assert_eq!(words[place], 0);
            filled[place] = largest(place);
        }
        let read = state(&filled).expect("well-formed");
        assert!(sound(&read));
        assert_eq!(image(&read), words);
    }
}

#[test]
fn each_word_beyond_its_width_is_malformed() {
    for (_, made) in fit::states_by_both_plans() {
        let words = image(&made);
        for place in 0..IMAGE_WORDS {
            let mut beyond = words;
            beyond[place] = match place {
                at::LAYOUT => LAYOUT + 1,
                // All numbers are within 64 bits.
                at::NEXT | at::BASE | at::EARLIER_TIME => continue,
                _ => largest(place) + 1,
            };
            assert_eq!(state(&beyond), None, "place {place}");
        }
        assert_eq!(state(&words[1..]), None);
        assert_eq!(state(&[&words[..], &[0]].concat()), None);
        assert_eq!(state(&[]), None);
    }
}

/// Layout 1 had a group's first bit in the place of its bits; layout 2 had 68
/// words, without an earlier record.
#[test]
fn an_image_of_another_layout_is_malformed() {
    for (name, made) in fit::states_by_both_plans() {
        let mut words = image(&made);
        assert_eq!((words[at::LAYOUT], words.len()), (3, 70));
        let mut shorter = words.to_vec();
        shorter.drain(at::EARLIER_TIME..=at::EARLIER_KIND);
        for layout in [1, 2, 3] {
            shorter[at::LAYOUT] = layout;
            assert_eq!((shorter.len(), state(&shorter)), (68, None), "{name}");
            let padded = [&shorter[..], &[0, 0]].concat();
            assert!(layout == 3 || state(&padded).is_none(), "{name}");
        }
        for layout in [0, 1, 2, 4, 259, 1 << 33 | 3, u64::MAX] {
            words[at::LAYOUT] = layout;
            for group in [0, 1] {
                words[at::GROUP] = group;
                assert_eq!(state(&words), None, "{name}, layout {layout}");
            }
        }
    }
}

/// Any byte is well-formed; whether it is sound is another matter.
#[test]
fn a_group_is_any_byte() {
    for (name, made) in fit::states() {
        let mut words = image(&made);
        let in_frame = uses(&words, at::GROUP);
        for group in 0..=255 {
            words[at::GROUP] = group;
            let read = state(&words).expect("well-formed");
            // The states have three bits received.
            assert_eq!(sound(&read), !in_frame || group < 8, "{name}, {group}");
            let kept = if in_frame { group } else { 0 };
            assert_eq!(image(&read)[at::GROUP], kept, "{name}");
        }
        words[at::GROUP] = 256;
        assert_eq!(state(&words), None, "{name}");
    }
}

/// Any time, and any byte as its kind, is well-formed and leads back; whether
/// it is sound is another matter (document 02, F-5).
#[test]
fn an_earlier_record_is_any_time_and_any_byte() {
    assert_eq!((at::EARLIER_TIME, at::EARLIER_KIND), (20, 21));
    assert_eq!((at::REGISTERS, at::WRITES, at::READS), (22, 38, 54));
    for (name, made) in fit::states() {
        let mut words = image(&made);
        let next = words[at::NEXT];
        for time in [0, next - 1, next, next + 1, 1 << 48, u64::MAX] {
            for kind in 0..=255 {
                (words[at::EARLIER_TIME], words[at::EARLIER_KIND]) = (time, kind);
                let read = state(&words).expect("well-formed");
                assert_eq!(image(&read), words, "{name}");
                let is_sound = kind == 0 || time < next;
                assert_eq!(sound(&read), is_sound, "{name}, {time} {kind:02X}");
            }
        }
        words[at::EARLIER_KIND] = 256;
        assert_eq!(state(&words), None, "{name}");
    }
}

/// None with any time, and each kind at the cycles just past.
#[test]
fn random_states_have_every_earlier_record() {
    let mut random = Random::new(85);
    let (mut kinds, mut near, mut ahead) = (BTreeSet::new(), BTreeSet::new(), 0);
    for number in 0..30_000 {
        let made = random_state(&mut random, PLANS[number % PLANS.len()]);
        let earlier = made.earlier;
        kinds.insert(earlier.kind);
        if earlier.kind == 0 {
            ahead += u32::from(earlier.time >= made.next_cycle);
            continue;
        }
        let back = made.next_cycle - earlier.time;
        if back <= 20 && EARLIER_KINDS.contains(&earlier.kind) {
            near.insert((earlier.kind, back));
        }
    }
    assert_eq!(kinds.len(), 256);
    assert_eq!(near.len(), (EARLIER_KINDS.len() - 1) * 20);
    assert!(ahead > 1_000, "{ahead}");
}

/// A word of the earlier record is compared like any other.
#[test]
fn a_wrong_earlier_record_is_a_difference() {
    let mut random = Random::new(86);
    let mut take = fit::call(&fit::hunting(), &mut random);
    take.count = 1;
    let expected = expected(&Call::Take(take));
    for (place, found) in [
        (20, "image word 20 (earlier time) "),
        (21, "image word 21 (earlier kind) "),
    ] {
        let mut reply = right_reply(&expected);
        reply[8 + 8 * place] ^= 1;
        let difference = difference(&expected, &reply).expect("a difference");
        assert!(difference.starts_with(found), "{difference}");
    }
}

#[test]
fn the_commands_of_crowding_are_of_every_kind() {
    let seen: BTreeSet<u8> = crowding::commands(9)
        .into_iter()
        .map(|command| command.kind)
        .collect();
    assert!(seen.into_iter().eq(kinds().map(|(_, kind)| kind)));
}

/// All that so many cycles can leave of a group, in both commands.
#[test]
fn random_states_hold_every_group() {
    let mut random = Random::new(83);
    let mut seen = BTreeSet::new();
    for number in 0..60_000 {
        let made = random_state(&mut random, PLANS[number % PLANS.len()]);
        if let Recogniser::Field5 {
            field3: field3 @ (slow::WR_FRONT_END | slow::RD_FRONT_END),
            received,
            group,
            ..
        } = made.recogniser
        {
            let cycles = received % 8;
            assert!(u32::from(group.bits) < 1 << cycles);
            seen.insert((field3, cycles, group.bits));
        }
    }
    assert!(seen.len() > 2 * 200, "{}", seen.len());
    for (field3, cycles) in [4, 5].into_iter().flat_map(|f| (0..8).map(move |c| (f, c))) {
        let largest = (1_u16 << cycles) - 1;
        assert!(seen.contains(&(field3, cycles, 0)));
        assert!(cycles > 4 || seen.contains(&(field3, cycles, largest as u8)));
    }
}

/// Document 02, F-13: RunMode, an empty window, and most often two hits or
/// more, with an LV1 that is sent and one that is not.
#[test]
fn the_streams_with_several_hits_begin_in_run_mode() {
    let mut several = 0;
    let mut sends = BTreeSet::new();
    for number in 0..hits::STREAMS {
        let (made, spaced) = hits::start(&mut Random::new(number), number);
        assert!(sound(&made) && made.run_mode);
        assert_eq!(made.recogniser, Recogniser::Hunting { window: 0 });
        several += u64::from(spaced.inverted.len() > 1);
        sends.insert((made.plan.mask, made.csr() & 0x0040));
    }
    assert!(several > hits::STREAMS * 3 / 4, "{several}");
    assert_eq!(sends.len(), 2 * PLANS.len());
}

/// The records of as much of a stream as the clock has cycles for.
fn records_from(state: &State, stream: &Stream) -> Vec<[u64; 2]> {
    let count = stream.bits.len() as u64;
    let count = count.min(CLOCK_LIMIT - state.next_cycle);
    let (mut store, mut tray) = (vec![0; STORE_WORDS], vec![0; TRAY_BYTES]);
    let mut list = vec![0; 2 * stream.bits.len()];
    let answer = take(
        state.clone(),
        &stream.bytes(),
        0,
        count,
        &mut store,
        &mut tray,
        &mut list,
        0,
    );
    assert_eq!(answer.bits_taken, count);
    let words = list.chunks_exact(RECORD_WORDS);
    let written = words.take(answer.records_written as usize);
    written.map(|words| [words[0], words[1]]).collect()
}

/// What is not hit is recorded alike, and a record off is seen.
#[test]
fn what_several_hits_leave_is_compared() {
    let mut seen = 0;
    for number in 0..hits::STREAMS {
        let (made, spaced) = hits::start(&mut Random::new(number), number);
        let clean = records_from(&made, &spaced.clean);
        let damaged = records_from(&made, &spaced.damaged());
        let fault = |damaged: &[[u64; 2]]| hits::fault(&spaced, made.next_cycle, &clean, damaged);
        assert_eq!(fault(&damaged), None, "{number}");
        let Some(&last) = spaced.unaffected.last() else {
            continue;
        };
        let is_last = |words: &&mut [u64; 2]| words[0] >> 16 == made.next_cycle + last as u64;
        // A trigger or bunch number may differ, and nothing else.
        for (word, bits, may) in [(0, 0x20, false), (1, 1 << 16, false), (1, 1 << 8, true)] {
            let mut other = damaged.clone();
            if let Some(words) = other.iter_mut().find(is_last) {
                words[word] ^= bits;
                assert_eq!(fault(&other).is_none(), may, "{number}");
                seen += 1;
            }
        }
    }
    assert!(seen > 3 * hits::STREAMS / 2, "{seen}");
}

#[test]
fn the_groups_of_the_vote_are_of_every_count_of_ones() {
    let groups = votes::some_groups();
    let of = |ones, first| {
        let fits = |group: &&u8| group.count_ones() == ones && **group >> 7 == first;
        groups.iter().filter(fits).count()
    };
    for ones in 0..=8 {
        // Of those there are many, one, or none.
        let expected = |rest: u32| match rest {
            0..=7 if [0, 7].contains(&rest) => 1,
            1..=6 => 3,
            _ => 0,
        };
        assert_eq!(of(ones, 0), expected(ones));
        assert_eq!(of(ones, 1), expected(ones.wrapping_sub(1)));
    }
}

/// A word in one unused place leaves all of them open; without one, none is.
#[test]
fn unused_words_are_exact_unless_the_image_lent_has_one() {
    let mut random = Random::new(84);
    for (name, made) in fit::states() {
        let words = image(&made);
        let mut take = fit::call(&words, &mut random);
        take.count = 1;
        let clean = expected(&Call::Take(take.clone()));
        assert_eq!(clean.unspecified, [], "{name}");
        let after: Image = taken(&clean).image[..].try_into().expect("an image");
        let unused: Vec<usize> = RECOGNISER.filter(|&place| !uses(&after, place)).collect();
        assert!(unused.iter().all(|&place| after[place] == 0), "{name}");
        for place in RECOGNISER.filter(|&place| !uses(&words, place)) {
            let mut take = take.clone();
            take.image[place] = 1;
            let filled = expected(&Call::Take(take));
            let of_group = |other: &usize| place != at::GROUP || *other == at::GROUP;
            let unspecified: Vec<usize> = unused.iter().copied().filter(of_group).collect();
            assert_eq!(filled.unspecified, unspecified, "{name}, place {place}");
            assert_eq!(taken(&filled).image, after, "{name}, place {place}");
        }
    }
}

#[test]
fn the_calls_that_the_cases_change_are_fit() {
    let mut random = Random::new(74);
    for (name, made) in fit::states_by_both_plans() {
        let take = fit::call(&image(&made), &mut random);
        assert_eq!(expected(&Call::Take(take)).answer, 0, "{name}");
    }
}

/// Document 02, F-9: mask 07FF, whatever was asked for.
#[test]
fn a_refused_opening_gives_the_default_plans_image() {
    let mut random = Random::new(82);
    let refused = [
        ([0x007F, 0, 0, 5, 9], layout::WRONG_PLAN),
        ([0x007F, 0, 2, 7, 9], layout::WRONG_PLAN),
        ([0x1_007F, 0, 2, 5, 9], layout::WRONG_PLAN),
        ([0x007F, 0, 2, 5, CLOCK_LIMIT], layout::WRONG_CYCLE),
        ([0xFFFF, 15, 14, 13, u64::MAX], layout::WRONG_CYCLE),
    ];
    let mut image = vec![0; IMAGE_WORDS];
    image[at::LAYOUT] = LAYOUT;
    image[at::MASK] = 0x07FF;
    image[at::FEEN] = 2;
    image[at::CNT] = 5;
    for ([mask, csr, feen, cnt, cycle], number) in refused {
        let expected = expected(&Call::Open(Open {
            mask,
            csr,
            feen,
            cnt,
            cycle,
            image: prefilled::words(&mut random, IMAGE_WORDS),
        }));
        assert_eq!(expected.answer, number, "{mask:X}");
        match expected.after {
            Call::Open(open) => assert_eq!(open.image, image, "{mask:X}"),
            other => panic!("not an opening: {other:?}"),
        }
    }
}

#[test]
fn an_image_of_which_no_bit_is_taken_stays_word_for_word() {
    let mut random = Random::new(75);
    for (name, made) in fit::states() {
        let words = image(&made);
        let mut filled = words;
        for place in RECOGNISER.filter(|&place| !uses(&words, place)) {
            filled[place] = largest(place);
        }
        let no_count = Take {
            count: 0,
            ..fit::call(&filled, &mut random)
        };
        let no_room = Take {
            list: Vec::new(),
            free: 0,
            ..fit::call(&filled, &mut random)
        };
        for (take, ending) in [(no_count, layout::DONE), (no_room, layout::LIST_FULL)] {
            let expected = expected(&Call::Take(take));
            let after = taken(&expected);
            assert_eq!(after.image, filled, "{name}");
            assert_eq!(after.result, [0, 0, ending], "{name}");
            assert_eq!(expected.unspecified, [], "{name}");
        }
    }
}

/// The records of a capture that is lent whole from cycle 0, with room for
/// all of them, and in how many calls they came.
fn read_whole(capture: &[u8]) -> (Vec<Record>, usize) {
    let mut state = State::start(Plan::DEFAULT, 0);
    let (mut store, mut tray) = (vec![0; STORE_WORDS], vec![0; TRAY_BYTES]);
    let mut list = vec![0; 2 * capture.len()];
    let (mut first, mut free, mut calls) = (0, 0, 0);
    loop {
        let count = 8 * capture.len() as u64 - first;
        let answer = take(
            state, capture, first, count, &mut store, &mut tray, &mut list, free,
        );
        calls += 1;
        state = answer.state;
        first += answer.bits_taken;
        free += RECORD_WORDS as u64 * answer.records_written;
        match answer.ending {
            Ending::Frame => {}
            Ending::Done => break,
            other => panic!("{other:?}"),
        }
    }
    let words = list[..free as usize].chunks_exact(RECORD_WORDS);
    let record = |words: &[u64]| Record::from_words([words[0], words[1]]);
    (words.map(record).collect(), calls)
}

#[test]
fn one_call_takes_the_large_capture_of_every_kind_but_frames() {
    let capture = large::commands(&mut Random::new(80)).bytes();
    assert_eq!(capture.len(), layout::INPUT_BYTES);
    let (records, calls) = read_whole(&capture);
    assert_eq!(calls, 1);
    let seen: BTreeSet<u8> = records.iter().map(|record| record.kind).collect();
    for (name, kind) in kinds() {
        let is_frame = (0x24..=0x26).contains(&kind);
        assert_eq!(seen.contains(&kind), !is_frame, "{name}");
    }
    let flags = records.iter().fold(0, |all, record| all | record.flags);
    let all = flag::ACTED_ON | flag::FLIP | flag::SENT | flag::MISSING | flag::TOO_CLOSE;
    assert_eq!(flags, all);
    // Every position, in and out of RunMode (document 02, F-1).
    let lv1 = records.iter().filter(|record| record.kind == kind::LV1);
    let seen: BTreeSet<(u32, u8)> = lv1
        .map(|record| (record.value >> 16, record.flags & flag::ACTED_ON))
        .collect();
    assert!(seen
        .into_iter()
        .eq((0..=5).flat_map(|position| [(position, 0), (position, 1)])));
    let last = records.last().expect("records");
    assert_eq!((last.time, last.kind), (large::BITS as u64 - 1, kind::LV1));
}

#[test]
fn the_frames_of_the_large_capture_lie_where_they_are_meant_to() {
    let capture = large::with_frames(&mut Random::new(81)).bytes();
    assert_eq!(capture.len(), layout::INPUT_BYTES);
    let (records, calls) = read_whole(&capture);
    assert_eq!(calls, 4);
    let frames = records
        .iter()
        .filter_map(|record| Some((record.kind, record.frame_bits()?, record.time)));
    let end = large::BITS as u64;
    let expected = [
        (0x24, 8_247, 8 * 65_536 + 998),
        (0x25, 8_247, end / 2 + 4_320),
        (0x26, 65_528, end - 1),
    ];
    assert_eq!(frames.collect::<Vec<_>>(), expected);
}

/// A taking call as it is expected to be afterwards.
fn taken(expected: &Expected) -> &Take {
    match &expected.after {
        Call::Take(take) => take,
        other => panic!("not a taking call: {other:?}"),
    }
}

/// The buffers that a driver sends back, by name, in the order of the header.
fn sent_back(call: &Call) -> Vec<(&'static str, Vec<u8>)> {
    let words = |words: &[u64]| words.iter().flat_map(|word| word.to_le_bytes()).collect();
    match call {
        Call::Open(open) => vec![("image", words(&open.image))],
        Call::Take(take) => {
            let store = take.store.iter().flat_map(|word| word.to_le_bytes());
            vec![
                ("image", words(&take.image)),
                ("store", store.collect()),
                ("tray", take.tray.clone()),
                ("list", words(&take.list)),
                ("result", words(&take.result)),
            ]
        }
        Call::FrameBits { .. } | Call::FramePart { .. } | Call::Accept { .. } => Vec::new(),
        Call::HexLine { bytes, .. } => vec![("bytes", bytes.clone())],
        Call::RecordLine { line, .. } => vec![("line", line.clone())],
        Call::Compose(compose) => vec![("output", compose.output.clone())],
        Call::Reply(reply) => vec![("buffer", reply.buffer.clone())],
    }
}

/// The reply of a driver that does as expected.
fn right_reply(expected: &Expected) -> Vec<u8> {
    let buffers = sent_back(&expected.after);
    let bytes = buffers.into_iter().flat_map(|(_, bytes)| bytes);
    expected
        .answer
        .to_le_bytes()
        .into_iter()
        .chain(bytes)
        .collect()
}

/// A call of each function, accepted but for the last of each of the last three.
fn one_of_each(random: &mut Random) -> Vec<Call> {
    vec![
        Call::Open(Open {
            mask: 0x007F,
            csr: 0,
            feen: 2,
            cnt: 5,
            cycle: 12,
            image: prefilled::words(random, IMAGE_WORDS),
        }),
        Call::Take(fit::call(&fit::hunting(), random)),
        Call::FrameBits {
            head: 0x2600,
            value: 24,
        },
        Call::FramePart {
            tray: vec![0; 4],
            bits: 17,
        },
        Call::HexLine {
            line: b"0123456789".to_vec(),
            bytes: prefilled::bytes(random, 40),
        },
        Call::RecordLine {
            line: prefilled::bytes(random, 30),
            head: random.word(),
            value: random.word(),
        },
        Call::Accept {
            input: vec![0xE8, 0x07, 0x40],
            first: 0,
            count: 24,
        },
        Call::Accept {
            input: vec![0xFF, 0xB0, 0xAC, 0x20],
            first: 8,
            count: 24,
        },
        Call::Compose(composing(
            &[[0x01, 3, 0, 0, 0, 0]],
            prefilled::bytes(random, 5),
        )),
        Call::Compose(composing(
            &[[0x02, 3, 0, 0, 0, 0]],
            prefilled::bytes(random, 5),
        )),
        Call::Reply(replying(3, prefilled::bytes(random, 5))),
        Call::Reply(replying(41, prefilled::bytes(random, 5))),
    ]
}

/// A reply of three bits behind three zeros.
fn replying(expected: u64, buffer: Vec<u8>) -> ReadReply {
    ReadReply {
        input: vec![0x1D, 0xFB, 0x04, 0xFF],
        first: 0,
        count: 32,
        expected,
        buffer,
    }
}

/// The answers for replies (document 02, F-12): number, what is said, and the
/// count of complete bits; and the buffer.
#[test]
fn answers_for_replies() {
    let answered = |call: ReadReply| {
        let expected = expected(&Call::Reply(call.clone()));
        assert_eq!(reply_bytes(&expected), 8 + call.buffer.len());
        let Call::Reply(after) = expected.after else {
            unreachable!("a call stays what it is");
        };
        assert_eq!(after.input, call.input);
        (expected.answer, after.buffer)
    };
    let read = |expected| answered(replying(expected, vec![0x5A; 2]));
    let unchanged = |answer| (answer, vec![0x5A; 2]);
    assert_eq!(read(1), (0x1_0000, vec![0x80, 0x5A]));
    assert_eq!(read(3), (0x3_0000, vec![0xA0, 0x5A]));
    assert_eq!(read(4), (0x3_0200, vec![0xA0, 0x5A]));
    assert_eq!(read(16), (0x3_0200, vec![0xA0, 0x5A]));
    assert_eq!(read(17), unchanged(19));
    assert_eq!(read(0), unchanged(18));
    assert_eq!(read(8_192), unchanged(18));
    let mut part = replying(3, vec![0x5A; 2]);
    part.count = 8;
    assert_eq!(answered(part.clone()), unchanged(0x0200));
    part.count = 7;
    assert_eq!(answered(part.clone()), unchanged(0x0100));
    part.first = u64::MAX;
    assert_eq!(answered(part.clone()), unchanged(5));
    part.buffer.clear();
    assert_eq!(answered(part.clone()), (19, vec![]));
    part.expected = u64::MAX;
    assert_eq!(answered(part), (18, vec![]));
    assert_eq!(layout::reply(layout::CUT_SHORT, 3), 0x3_0200);
    assert_eq!(longest_reply().bytes(), layout::REPLY_BYTES);
}

/// The random replies of the comparison have each answer, and long ones.
#[test]
fn random_replies_have_every_answer() {
    let mut counts = BTreeMap::new();
    let (mut exact, mut larger, mut long) = (0, 0, 0);
    for number in 0..4_000 {
        let call = replies::random_call(&mut Random::new(number));
        let expected = expected(&Call::Reply(call.clone()));
        *counts.entry(expected.answer & 0xFFFF).or_insert(0) += 1;
        if expected.answer & 0xFF == 0 {
            let needed = replies::bytes_of(call.expected);
            exact += u32::from(needed == call.buffer.len());
            larger += u32::from(needed < call.buffer.len());
        }
        long += u32::from(expected.answer >> 16 > 1_000);
    }
    let answers = [0, 5, 18, 19, 0x0100, 0x0200];
    assert!(counts.keys().eq(&answers), "{counts:?}");
    assert!(counts.values().all(|&count| count > 200), "{counts:?}");
    assert!(exact > 1_000 && larger > 500, "{exact} {larger}");
    assert!(long > 10, "{long}");
}

/// Orders to be composed in the default plan.
fn composing(orders: &[[u64; 6]], output: Vec<u8>) -> Compose {
    Compose {
        mask: 0x07FF,
        csr: 0,
        feen: 2,
        cnt: 5,
        orders: orders.concat(),
        frames: vec![0xA5, 0xC3],
        output,
    }
}

/// The answers for orders (document 02, F-2): number, and the order at fault or
/// the count of bits; and the output.
#[test]
fn answers_for_orders() {
    const LV1: [u64; 6] = [0x01, 0, 0, 0, 0, 0];
    const BCR: [u64; 6] = [0x11, 0, 0, 0, 0, 0];
    let far = [0x01, u64::MAX, 0, 0, 0, 0];
    let answered = |call: Compose| {
        let expected = expected(&Call::Compose(call.clone()));
        assert_eq!(reply_bytes(&expected), 8 + call.output.len());
        let Call::Compose(after) = expected.after else {
            unreachable!("a call stays what it is");
        };
        // What is lent to be read only is as it was.
        assert_eq!((after.orders, after.frames), (call.orders, call.frames));
        (expected.answer, after.output)
    };
    let composed = |orders: &[[u64; 6]]| answered(composing(orders, vec![0x5A; 4]));
    let refused = |answer| (answer, vec![0x5A; 4]);
    assert_eq!(composed(&[]), refused(0));
    assert_eq!(
        composed(&[LV1, LV1]),
        (0x0A00, vec![0xEF, 0x40, 0x5A, 0x5A])
    );
    assert_eq!(composed(&[LV1, [0; 6]]), refused(0x0109));
    assert_eq!(composed(&[LV1, BCR, BCR]), refused(0x020A));
    assert_eq!(composed(&[far]), refused(0x000B));
    assert_eq!(composed(&[LV1; 7]), refused(0x000B));
    let mut cut = composing(&[LV1, LV1], vec![0x5A; 4]);
    cut.orders.pop();
    assert_eq!(answered(cut), refused(0x0109));
    for wide in [0x1_07FF, 1 << 63 | 0x07FF] {
        let mask = Compose {
            mask: wide,
            ..composing(&[LV1], vec![0x5A; 4])
        };
        assert_eq!(answered(mask), refused(0x0001));
    }
    for wide in [2, 16, 256 + 5, 1 << 32 | 5, u64::MAX] {
        let cnt = Compose {
            cnt: wide,
            ..composing(&[far, [0; 6]], vec![0x5A; 4])
        };
        assert_eq!(answered(cnt), refused(0x0001));
    }
}

/// The random orders of the comparison have each number, and long lists.
#[test]
fn random_orders_have_every_number() {
    let mut counts = BTreeMap::new();
    let (mut exact, mut larger, mut frames) = (0, 0, 0);
    for number in 0..4_000 {
        let mut call = composing::random_call(&mut Random::new(number), number);
        let length = call.output.len() as u64;
        frames = frames.max(call.frames.len());
        let expected = expected(&Call::Compose(call.clone()));
        *counts.entry(expected.answer & 0xFF).or_insert(0) += 1;
        let plan = Plan {
            mask: call.mask as u16,
            csr: call.csr as u8,
            feen: call.feen as u8,
            cnt: call.cnt as u8,
        };
        let answer = compose(plan, &call.orders, &call.frames, &mut call.output);
        if let Ok(bits) = answer {
            exact += u32::from(bits.div_ceil(8) == length);
            larger += u32::from(bits.div_ceil(8) < length);
        }
    }
    assert!(counts.keys().eq(&[0, 9, 10, 11]), "{counts:?}");
    assert!(counts.values().all(|&count| count > 120), "{counts:?}");
    assert!(exact > 300 && larger > 150, "{exact} {larger}");
    assert!(frames > 8_000, "{frames}");
}

/// The answers for streams (document 02, F-8): number, and place from the
/// range's first bit on.
#[test]
fn answers_for_streams() {
    let answer = |input: &[u8], first, count| {
        let call = Call::Accept {
            input: input.to_vec(),
            first,
            count,
        };
        let expected = expected(&call);
        assert_eq!(reply_bytes(&expected), 8);
        expected.answer
    };
    let input = [0xFF, 0xB0, 0xAC, 0x20];
    assert_eq!(answer(&input, 8, 9), 0);
    assert_eq!(answer(&input, 8, 24), 0x0A0F);
    assert_eq!(answer(&input, 8, 23), 0x0A0F);
    assert_eq!(answer(&input, 8, 18), 0x0A0E);
    assert_eq!(answer(&input, 3, 24), 0x000D);
    assert_eq!(answer(&input, 17, 15), 0);
    assert_eq!(answer(&input, 8, 25), 5);
    assert_eq!(answer(&[], u64::MAX, u64::MAX), 5);
    assert_eq!(layout::verdict(layout::PATTERN_TOO_CLOSE, 10), 0x0A0F);
}

/// The random streams of the comparison have each verdict, and long ones.
#[test]
fn random_streams_have_every_verdict() {
    let mut counts = BTreeMap::new();
    let mut long = 0;
    for number in 0..4_000 {
        let stream = accepting::random_stream(&mut Random::new(number), number);
        let verdict = accept(&stream.bytes(), 0, stream.bits.len() as u64);
        let number = verdict.map_or_else(|fault| fault.number(), |()| 0);
        *counts.entry(number).or_insert(0) += 1;
        long += u32::from(stream.bits.len() > 5_000);
    }
    assert!(counts.keys().eq(&[0, 13, 14, 15]), "{counts:?}");
    assert!(counts.values().all(|&count| count > 200), "{counts:?}");
    assert!(long > 10, "{long}");
    let dense = accepting::dense(&mut Random::new(1), 100_000);
    assert_eq!(dense.stream.bits.len(), 100_000);
    assert!(dense.sent.len() > 10_000 && dense.needed_zeros().len() > 2_000);
    let verdict = accept(&dense.stream.bytes(), 0, 100_000);
    assert_eq!(verdict, Ok(()));
}

#[test]
fn a_wrong_answer_is_a_difference() {
    let mut random = Random::new(76);
    for call in one_of_each(&mut random) {
        let expected = expected(&call);
        let right = right_reply(&expected);
        assert_eq!(right.len(), reply_bytes(&expected));
        assert_eq!(difference(&expected, &right), None);
        for place in 0..8 {
            let mut wrong = right.clone();
            wrong[place] ^= 1;
            let found = difference(&expected, &wrong).expect("a difference");
            assert!(found.starts_with("the answer differs"), "{found}");
        }
    }
}

#[test]
fn a_byte_off_in_any_buffer_is_a_difference() {
    let mut random = Random::new(77);
    for call in one_of_each(&mut random) {
        let expected = expected(&call);
        let right = right_reply(&expected);
        let mut start = 8;
        for (name, bytes) in sent_back(&expected.after) {
            let last = bytes.len() - 1;
            let somewhere = random.below(bytes.len() as u64) as usize;
            for place in [0, somewhere, last] {
                let mut wrong = right.clone();
                wrong[start + place] ^= 1 << random.below(8);
                let found = difference(&expected, &wrong).expect("a difference");
                assert!(found.starts_with(&format!("{name} ")), "{found}");
            }
            start += bytes.len();
        }
        assert_eq!(start, right.len());
    }
}

#[test]
fn a_refused_call_that_changes_a_byte_is_a_difference() {
    let mut random = Random::new(78);
    let mut take = fit::call(&fit::hunting(), &mut random);
    take.first = u64::MAX;
    let expected = expected(&Call::Take(take));
    assert_eq!(expected.answer, layout::WRONG_RANGE);
    let mut reply = right_reply(&expected);
    assert_eq!(difference(&expected, &reply), None);
    *reply.last_mut().expect("a result") ^= 1;
    let found = difference(&expected, &reply).expect("a difference");
    assert!(found.starts_with("result element 2 "), "{found}");
}

#[test]
fn an_unspecified_word_may_be_any_of_its_width_and_no_other() {
    let mut random = Random::new(79);
    let in_receiver = |(_, made): &(String, State)| is_inside_wr_receiver(&image(made));
    let (_, made) = fit::states()
        .into_iter()
        .find(in_receiver)
        .expect("WrReceiver");
    let mut take = fit::call(&image(&made), &mut random);
    take.count = 1;
    let clean = expected(&Call::Take(take.clone()));
    take.image[at::UNSTEADY] = 1;
    let filled = expected(&Call::Take(take));
    let with = |expected: &Expected, place: usize, word: u64| {
        let mut reply = right_reply(expected);
        reply[8 + 8 * place..][..8].copy_from_slice(&word.to_le_bytes());
        difference(expected, &reply)
    };
    for group in 0..=255 {
        assert_eq!(with(&filled, at::GROUP, group), None);
        // In an image that held nothing unused it is 0.
        assert_eq!(with(&clean, at::GROUP, group).is_none(), group == 0);
    }
    for beyond in [256, 257, 1 << 63, u64::MAX] {
        for expected in [&clean, &filled] {
            let found = with(expected, at::GROUP, beyond).expect("a difference");
            assert!(found.starts_with("image word 12 (group) "), "{found}");
        }
    }
    // A used word is specified.
    let found = with(&filled, at::ADDRESS, 4).expect("a difference");
    assert!(found.starts_with("image word 9 (address) "), "{found}");
}

/// What a program in place of the driver comes to with one call, or none.
fn with_driver(program: &str, call: Option<Call>) -> Tally {
    let mut tally = Tally::default();
    let ran = checker::run(Path::new(program), &mut tally, |checker| match &call {
        Some(call) => checker.check("call".to_string(), call).map(drop),
        None => Ok(()),
    });
    ran.expect("the program can be run");
    tally
}

/// A call whose answer is also the first word of its request, so that `cat`
/// answers it well and then goes on.
fn answered_by_its_request() -> Call {
    Call::FrameBits {
        head: 0x2600,
        value: 3,
    }
}

#[test]
fn a_driver_that_does_not_do_its_part_is_reported() {
    let call = answered_by_its_request;
    let reported = |program, call, fault: &str| {
        let tally = with_driver(program, call);
        assert!(!tally.all_passed(), "{program} passed");
        assert!(tally.to_string().contains(fault), "{tally}");
    };
    assert!(with_driver("true", None).all_passed());
    reported(
        "true",
        Some(call()),
        "call: the driver ended within this call",
    );
    reported("false", None, "its end: it ended with exit status: 1");
    reported(
        "cat",
        Some(call()),
        "after the last call: more was written than asked for",
    );
    let other = Call::FrameBits {
        head: 0x2600,
        value: 4,
    };
    reported(
        "cat",
        Some(other),
        "call: the answer differs: expected 4, got 3",
    );
}
