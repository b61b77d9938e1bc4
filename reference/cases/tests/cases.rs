//! The cases: names, repeatability, and what they cover.

use cases::generate::{late_groups, noisy_groups, without_frames, Addresses, Noise};
use cases::order_texts::{frame_word, plain_text, random_text, words, TextFlaw};
use cases::orders::{self, at, lent, random_orders, stream_of, Order, Ordered};
use cases::pulses::{ending_with_a_byte, pulses, Flaw, Pulses};
use cases::replies::{no_header, random_reply, ReplyFlaw};
use cases::spaced::{spaced_hits, Inverted, Sent, Spaced, BCR, CAL, SYNC};
use cases::{
    composed, crowded, fixed, generated, hits, noisy, pulsed, replied, Case, Random, Stream,
};
use std::collections::HashSet;

#[test]
fn names_serve_as_file_names() {
    let mut names = HashSet::new();
    let listed = [
        fixed(),
        generated(40),
        noisy(40),
        crowded(40),
        hits(40),
        pulsed(40),
        composed(40),
        replied(40),
    ];
    for case in listed.concat() {
        let mut parts = case.name.split('/');
        assert!(parts.all(|part| {
            let fit = |c: u8| c.is_ascii_alphanumeric() || c == b'-';
            !part.is_empty() && part.bytes().all(fit)
        }));
        // Also where upper and lower case are the same.
        assert!(names.insert(case.name.to_lowercase()), "{}", case.name);
    }
}

#[test]
fn generated_cases_repeat() {
    let inputs = |count| generated(count).into_iter().map(|case| case.input);
    assert!(inputs(20).eq(inputs(40).take(20)));
    let inputs = |count| noisy(count).into_iter().map(|case| case.input);
    assert!(inputs(20).eq(inputs(40).take(20)));
    let inputs = |count| crowded(count).into_iter().map(|case| case.input);
    assert!(inputs(20).eq(inputs(40).take(20)));
    let inputs = |count| hits(count).into_iter().map(|case| case.input);
    assert!(inputs(20).eq(inputs(40).take(20)));
    let inputs = |count| pulsed(count).into_iter().map(|case| case.input);
    assert!(inputs(20).eq(inputs(40).take(20)));
    let inputs = |count| composed(count).into_iter().map(|case| case.input);
    assert!(inputs(20).eq(inputs(40).take(20)));
    let told = |case: Case| (case.input, case.count);
    let inputs = |count| replied(count).into_iter().map(told);
    assert!(inputs(20).eq(inputs(40).take(20)));
}

/// How often groups of each count of ones occur, by the first cycle.
fn by_ones(groups: &[u8]) -> [[u32; 2]; 9] {
    let mut counts = [[0; 2]; 9];
    for group in groups {
        counts[group.count_ones() as usize][usize::from(group >> 7)] += 1;
    }
    counts
}

#[test]
fn noise_is_of_every_kind() {
    let mut random = Random::new(2);
    let mut groups = |noise| noisy_groups(noise, &mut random, 20_000);
    for noise in [Noise::Any, Noise::Cycles(2), Noise::Cycles(4)] {
        let groups = groups(noise);
        assert_eq!(groups.len(), 20_000);
        let counts = by_ones(&groups);
        let all = (0..=8).flat_map(|ones| [(ones, 0), (ones, 1)]);
        // No ones with a first cycle of 1, and no zeros with one of 0.
        let mut all = all.filter(|place| ![(0, 1), (8, 0)].contains(place));
        assert!(all.all(|(ones, first)| counts[ones][first] > 20));
    }
    // One cycle in twenty: most groups are steady, some are not.
    let counts = by_ones(&groups(Noise::Cycles(20)));
    assert!(counts[0][0] + counts[8][1] > 10_000);
    assert!(counts[1][0] > 1_000 && counts[7][1] > 1_000);
    // A line that is late has the first cycle wrong, or none.
    for group in groups(Noise::Late) {
        assert!([0x00, 0x7F, 0x80, 0xFF].contains(&group));
    }
}

#[test]
fn a_late_line_has_the_bit_before() {
    let bits = Stream::new().pattern("1 1 0 0 1 0").bits;
    let groups = [0x7F, 0xFF, 0x80, 0x00, 0x7F, 0x80];
    assert_eq!(late_groups(&bits), groups);
    assert_eq!(late_groups(&[]), [0; 0]);
}

#[test]
fn groups_are_a_frame_with_its_cycles() {
    for field3 in [4, 5] {
        let steady = Stream::new().groups(field3, &[0xFF, 0x00, 0xFF]);
        assert_eq!(
            steady,
            Stream::new().front_end(field3, &[true, false, true])
        );
        let cycles = Stream::new().slow(field3, 0).pattern("10010110 01111111");
        assert_eq!(Stream::new().groups(field3, &[0x96, 0x7F]), cycles);
    }
}

/// Bits counted from the item's command, and which commands are affected.
#[test]
fn hits_lie_where_they_are_said_to() {
    let spaced = Spaced::new()
        .item(3, Sent::Lv1, Inverted::Ahead(1))
        .item(2, BCR, Inverted::Ahead(2))
        .item(2, CAL, Inverted::Nowhere)
        .item(0, SYNC, Inverted::Bit(9))
        .item(4, Sent::Lv1, Inverted::Nowhere)
        .end(4, Some(3));
    let clean = "000 11101 00 101100001 00 101100100 101101000 0000 11101 0000";
    let damaged = "001 11101 10 101100001 00 101100100 101101001 0000 11101 0001";
    assert_eq!(spaced.clean, Stream::new().pattern(clean));
    assert_eq!(spaced.damaged(), Stream::new().pattern(damaged));
    assert_eq!(spaced.inverted, [2, 8, 38, 51]);
    assert_eq!(spaced.unaffected, [7, 29, 47]);
    assert!(spaced.may_invert());
    assert_eq!(spaced.zeros_asked(BCR), 0);
}

#[test]
#[should_panic(expected = "may_invert")]
fn a_hit_next_to_an_affected_command_is_not_spaced() {
    let spaced = Spaced::new().item(0, BCR, Inverted::Bit(1));
    spaced.item(1, Sent::Lv1, Inverted::Ahead(1));
}

#[test]
fn hits_are_as_many_as_asked_for() {
    let mut random = Random::new(3);
    let mut count = |one_in| spaced_hits(&mut random, 3_000, one_in).inverted.len();
    // Not where a command is affected just ahead.
    assert!((1_500..2_000).contains(&count(1)));
    assert!((800..1_300).contains(&count(2)));
    assert!((100..200).contains(&count(20)));
}

/// Commands with the zeros asked, and where a zero is needed.
#[test]
fn pulses_keep_the_timing_table() {
    let sent = Pulses::new()
        .send(1, BCR)
        .send(0, SYNC)
        .send(0, Sent::Lv1)
        .send(2, BCR)
        .send(1, CAL)
        .send(0, CAL)
        .zeros(2);
    let stream = "0 101100001 00 101101000 0000 11101 00 101100001 000 101100100 101100100 00";
    assert_eq!(sent.stream, Stream::new().pattern(stream));
    let firsts: Vec<usize> = sent.sent.iter().map(|(_, first)| *first).collect();
    assert_eq!(firsts, [1, 12, 25, 32, 44, 53]);
    assert_eq!(sent.needed_zeros(), [11, 24]);
    let cut = Stream::new().pattern("11101 1");
    assert_eq!(
        ending_with_a_byte(&cut),
        Stream::new().pattern("00 11101 1")
    );
}

#[test]
fn a_flaw_is_somewhere() {
    let mut random = Random::new(4);
    for _ in 0..200 {
        let sent = pulses(&mut random, 20);
        let clean = &sent.stream.bits;
        for flaw in Flaw::ALL {
            let bits = flaw.put_into(&sent, &mut random).bits;
            let differ = bits.iter().zip(clean).filter(|(a, b)| a != b).count();
            match flaw {
                Flaw::Nothing => assert_eq!(bits, *clean),
                Flaw::Inverted => assert_eq!((bits.len(), differ), (clean.len(), 1)),
                Flaw::ZeroMissing => {
                    let missing = usize::from(!sent.needed_zeros().is_empty());
                    assert_eq!(bits.len() + missing, clean.len());
                }
                Flaw::Cut => assert!(bits.len() < clean.len() && differ == 0),
                Flaw::Slow => assert_eq!(bits.len(), clean.len() + 9),
                Flaw::FlippedLv1 => assert_eq!(bits.len(), clean.len() + 5),
                Flaw::Extra => assert!(bits.len() > clean.len()),
            }
        }
    }
}

/// Orders, their stream, their words and their text.
#[test]
fn orders_by_hand() {
    let frame = Stream::new().pattern("010111001").bits;
    let commands = [
        (0, Ordered::WrRegister(5, 0x48)),
        (3, Ordered::FrontEnd(4, frame)),
        (0, Ordered::Fast(1)),
        (2, Ordered::RdFifo(15)),
        (1, Ordered::ResetFe(9)),
    ];
    let orders = commands.map(|(zeros, command)| Order { zeros, command });
    let cycles = "00000000 11111111 00000000 11111111 11111111 11111111 00000000 00000000 11111111";
    let stream = Stream::new()
        .pattern("10110 1011 0000 0101 0000000001001000")
        .pattern("000 10110 1011 0100 0000")
        .pattern(cycles)
        .pattern("10110 0001")
        .pattern("00 10110 1011 0011 1111 000000000000000000000000000")
        .pattern("0 10110 1011 1010 0000 1001");
    assert_eq!(stream_of(&orders), stream);
    let text = "wr-register 5 48\nwr-front-end 5C8:9 3\nbcr\nrd-fifo F 2\nglobal-reset-fe 9 1\n";
    assert_eq!(plain_text(&orders), text);
    assert_eq!(words(&orders[1]), ["wr-front-end", "5C8:9", "3"]);
    assert_eq!(frame_word(&[true; 8]), "FF");
    assert_eq!(frame_word(&[]), ":0");
    let lent = lent(&orders, &mut Random::new(5));
    let words: Vec<&[u64]> = lent.orders.chunks(at::WORDS).collect();
    let used = |order: usize, places: &[usize]| -> Vec<u64> {
        places.iter().map(|&place| words[order][place]).collect()
    };
    assert_eq!(used(0, &[0, 1, 2, 3]), [0x20, 0, 5, 0x48]);
    assert_eq!(used(1, &[0, 1, 5]), [0x24, 3, 9]);
    let first = words[1][at::FRAME] as usize;
    assert_eq!((lent.frames[first], lent.frames[first + 1] >> 7), (0x5C, 1));
    assert_eq!(used(2, &[0, 1]), [0x11, 0]);
    assert_eq!(used(3, &[0, 1, 2]), [0x23, 2, 15]);
    assert_eq!(used(4, &[0, 1, 3]), [0x2A, 1, 9]);
}

#[test]
fn random_orders_keep_the_timing_table() {
    let mut random = Random::new(6);
    let (mut just, mut more) = (0, 0);
    for _ in 0..300 {
        let orders = random_orders(&mut random, Addresses::DEFAULT, 30);
        assert_eq!(orders.len(), 30);
        for pair in orders.windows(2) {
            let asked = pair[0].command.zeros_ahead_of(&pair[1].command);
            assert!(pair[1].zeros >= asked);
            just += u32::from(asked > 0 && pair[1].zeros == asked);
            more += u32::from(asked > 0 && pair[1].zeros > asked);
        }
    }
    assert!(just > 300 && more > 150, "{just} {more}");
}

/// A flaw changes one order, if any can have it; a text with one differs.
#[test]
fn flaws_of_orders_are_somewhere() {
    let mut random = Random::new(7);
    let mut texts = 0;
    for _ in 0..200 {
        let orders = random_orders(&mut random, Addresses::DEFAULT, 15);
        let clean = lent(&orders, &mut random);
        for flaw in orders::Flaw::ALL {
            let mut flawed = clean.clone();
            flaw.put_into(&mut flawed, &orders, &mut random);
            assert_eq!(flawed.frames, clean.frames);
            let pairs = flawed.orders.iter().zip(&clean.orders);
            let differ = pairs.filter(|(a, b)| a != b).count();
            match flaw {
                orders::Flaw::Nothing => assert_eq!(flawed, clean),
                orders::Flaw::Cut => {
                    assert!((1..6).contains(&(clean.orders.len() - flawed.orders.len())));
                    assert_eq!(differ, 0);
                }
                _ => assert!(differ <= 1 && flawed.orders.len() == clean.orders.len()),
            }
        }
        let plain = plain_text(&orders).into_bytes();
        for flaw in TextFlaw::ALL {
            let text = random_text(&orders, flaw, &mut random);
            texts += u32::from(text != plain);
            assert!(text.len() < plain.len() + 70_000, "{flaw:?}");
        }
    }
    assert!(texts > 2_000, "{texts}");
}

/// The header, and each bit for eight cycles.
#[test]
fn replies_by_hand() {
    let sent = Stream::new().zeros(3).reply(&[true, false]);
    let stream = Stream::new().pattern("000 11101 11111111 00000000");
    assert_eq!(sent, stream);
    let cycles = Stream::new().pattern("11101 10010110 01111111");
    assert_eq!(Stream::new().reply_groups(&[0x96, 0x7F]), cycles);
    for case in replied(200) {
        let count: u64 = case.count.expect("it is told").parse().unwrap();
        assert!((1..=8_191).contains(&count));
    }
}

fn holds_a_header(bits: &[bool]) -> bool {
    let header = Stream::new().pattern("11101").bits;
    bits.windows(5).any(|five| five == header)
}

/// A reply has its header and all its groups, or ends too early.
#[test]
fn flaws_of_replies_are_somewhere() {
    let mut random = Random::new(8);
    for _ in 0..500 {
        for flaw in ReplyFlaw::ALL {
            let bits = random_reply(flaw, 20, &mut random).bits;
            let least = match flaw {
                ReplyFlaw::Cut => 0,
                ReplyFlaw::Early => 5 + 5 + 160,
                ReplyFlaw::Nothing | ReplyFlaw::Header => 5 + 160,
            };
            assert!((least..300).contains(&bits.len()), "{flaw:?}");
            let has_one = !matches!(flaw, ReplyFlaw::Cut | ReplyFlaw::Header);
            assert!(!has_one || holds_a_header(&bits), "{flaw:?}");
        }
    }
}

#[test]
fn lines_without_a_header_have_their_length() {
    for characters in (0..200).chain([65_521, 65_535, 65_536, 131_072]) {
        let text = no_header(characters);
        assert_eq!(text.len(), characters);
        assert!(text.lines().all(|line| line.len() % 2 == 0));
        let bytes = text.lines().collect::<String>();
        let bits = |digit: char| Stream::new().number(digit.to_digit(16).unwrap(), 4).bits;
        let bits: Vec<bool> = bytes.chars().flat_map(bits).collect();
        assert!(!holds_a_header(&bits));
        assert!(text.is_empty() || text.ends_with('\n'));
    }
}

#[test]
fn a_stream_without_frames_has_its_count_of_bits() {
    for count in [0, 1, 79, 80, 81, 1_000, 99_999] {
        let stream = without_frames(&mut Random::new(1), count);
        assert_eq!(stream.bits.len(), count);
    }
}

#[test]
fn cases_cover_what_they_should() {
    let names: Vec<String> = fixed().into_iter().map(|case| case.name).collect();
    let count = |start: &str| names.iter().filter(|name| name.starts_with(start)).count();
    assert_eq!(count("marked/"), 28);
    for (table, rows) in [(4, 10), (5, 14), (6, 14), (7, 14), (8, 14), (9, 14)] {
        // In and out of RunMode.
        assert_eq!(count(&format!("tables/1-{table}/")), 2 * rows);
    }
    // Positions, cuts by lines and by blocks, and after each command.
    assert_eq!(count("flips/"), 2 * (3 + 18));
    for name in ["0", "1", "7", "8", "9", "8247"] {
        for kind in ["wr", "rd"] {
            assert!(names.contains(&format!("frames/{kind}-{name}")));
        }
    }
    assert!(names.contains(&"frames/receiver-65528".to_string()));
    // Sixteen by their ones and first cycle, and six others.
    assert_eq!(count("votes/"), 2 * (16 + 6));
    for kind in ["wr", "rd"] {
        assert_eq!(count(&format!("votes/{kind}-4-ones-")), 2);
        assert!(names.contains(&format!("votes/{kind}-slow-drivers")));
        assert!(names.contains(&format!("votes/{kind}-all-groups")));
    }
    // After each of 23 commands, with seven CNT, and four others; and one.
    assert_eq!(count("crowded/"), 2 * (23 + 7 + 4) + 1);
    // A day, and every bit in and out of RunMode, clean and hit; and one.
    assert_eq!(count("hits/"), 2 * (1 + 2) + 1);
    // Twelve unknown patterns first and later; each bit of each command.
    assert_eq!(count("accept/unknown-1"), 12 * 5);
    assert_eq!(count("accept/hit-"), 5 + 4 * 9);
    // Each beginning of three commands, first and later.
    assert_eq!(count("accept/cut-lv1-"), 2 * 4);
    assert_eq!(
        count("accept/cut-bcr-") + count("accept/cut-sync-"),
        2 * 2 * 8
    );
    // Zeros too few: 2 and 1 ahead of each of four Fasts, and 4; twice each.
    let close = ["bcr", "ecr", "sync"].map(|name| count(&format!("accept/close-{name}-")));
    assert_eq!(close, [2 * 2 * 4, 2 * 4, 2 * 4]);
    let refused = count("accept/line-wrong-") + count("accept/line-odd-");
    assert_eq!(refused, 7 + 1);
    // Each of 15 commands alone; each with too few zeros after each.
    for name in ["lv1", "sync", "wr-fifo", "wr-receiver", "global-reset-fe"] {
        assert!(names.contains(&format!("compose/{name}")), "{name}");
    }
    for name in ["close-bcr-", "close-ecr-"] {
        // Beside them one or two short ones.
        assert!(count(&format!("compose/{name}")) >= 14, "{name}");
    }
    // Seven of each length and two without a line feed; and one of line feeds.
    assert!(count("compose/wrong-") > 55 && count("compose/line-") == 3 * 7 + 2 + 1);
    assert_eq!(count("compose/frame-longest-"), 3 * 3);
    let lines = |case: &Case| case.input.iter().filter(|&&byte| byte == b'\n').count();
    let long = generated(450)
        .iter()
        .filter(|case| lines(case) > 300)
        .count();
    assert!(long >= 40, "{long}");
}

#[test]
fn replies_cover_what_they_should() {
    let names: Vec<String> = fixed().into_iter().map(|case| case.name).collect();
    let count = |start: &str| names.iter().filter(|name| name.starts_with(start)).count();
    // An input's end and a block's edge at each of 19 places of a reply, by two
    // counts at the edge; the greatest reply in each way.
    assert_eq!(count("reply/end-"), 19);
    assert_eq!(count("reply/edge-"), 2 * 19);
    assert_eq!(count("reply/whole-with-block-"), 2 * 3);
    assert_eq!(count("reply/greatest"), 6);
    assert_eq!(count("reply/blocks-"), 2 * 9);
    for name in [
        "no-header-hit-",
        "place-",
        "count-",
        "line-odd-",
        "line-wrong-",
    ] {
        assert!(count(&format!("reply/{name}")) >= 5, "{name}");
    }
}
