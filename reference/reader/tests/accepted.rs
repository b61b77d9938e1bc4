//! The check of a finished stream (document 02, F-8): every stream of up to
//! 18 bits against the request's words, long ones, and the program.

use cases::pulses::{ending_with_a_byte, pulses, Flaw};
use cases::spaced::Sent;
use cases::{fixed, pulsed, Random, Stream};
use reader::record::flag;
use reader::{accept, open, take, Fault, Judge, Plan, Program, Record, WhyNot};
use std::collections::BTreeMap;

/// The five commands as they are written in the papers.
const COMMANDS: [&str; 5] = ["11101", "101100001", "101100010", "101100100", "101101000"];
const LV1: usize = 0;
const BCR: usize = 1;
const ECR: usize = 2;
const SYNC: usize = 4;

/// The timing table: after BCR 2, after ECR 1, if a Fast follows; after SYNC
/// 4, if an LV1 follows; otherwise 0. Commands by their places above.
fn asked(before: usize, next: usize) -> usize {
    if next == LV1 {
        return if before == SYNC { 4 } else { 0 };
    }
    match before {
        BCR => 2,
        ECR => 1,
        _ => 0,
    }
}

/// The longest streams that are tried all.
const MOST: usize = 18;

/// A text of 0 and 1, packed into bytes; and the count of its bits.
fn packed(text: &str) -> (Vec<u8>, u64) {
    let stream = Stream::new().pattern(text);
    (stream.bytes(), stream.bits.len() as u64)
}

/// A verdict as its number and place; 0 and 0 for an accepted stream.
fn answer(verdict: Result<(), Fault>) -> (u8, u64) {
    match verdict {
        Ok(()) => (0, 0),
        Err(fault) => (fault.number(), fault.place),
    }
}

fn judged(text: &str) -> (u8, u64) {
    let (bytes, count) = packed(text);
    answer(accept(&bytes, 0, count))
}

/// Whether each stream of each length is accepted, by putting together every
/// list of items, zeros and a command, that keeps the table, and zeros at the
/// end.
struct Accepted(Vec<Vec<bool>>);

impl Accepted {
    fn all() -> Accepted {
        let none = (0..=MOST).map(|length| vec![false; 1 << length]);
        let mut accepted = Accepted(none.collect());
        accepted.put_together(0, 0, None);
        accepted
    }

    /// The items so far, as a number of so many bits, end with a command, or
    /// there is none.
    fn put_together(&mut self, bits: usize, length: usize, last: Option<usize>) {
        for zeros in 0..=MOST - length {
            self.0[length + zeros][bits << zeros] = true;
        }
        for (next, command) in COMMANDS.iter().enumerate() {
            let least = last.map_or(0, |last| asked(last, next));
            let room = MOST.saturating_sub(length + command.len());
            if length + command.len() > MOST {
                continue;
            }
            for zeros in least..=room {
                let sent = usize::from_str_radix(command, 2).unwrap();
                let bits = bits << (zeros + command.len()) | sent;
                self.put_together(bits, length + zeros + command.len(), Some(next));
            }
        }
    }

    fn has(&self, text: &str) -> bool {
        let bits = usize::from_str_radix(text, 2).unwrap_or(0);
        self.0[text.len()][bits]
    }
}

/// The first fault by the words of the request: w are the bits from the first
/// 1 after the pattern before to the end of the stream.
fn by_the_words(text: &str) -> (u8, u64) {
    let mut from = 0;
    let mut before = None;
    while let Some(zeros) = text[from..].find('1') {
        let place = from + zeros;
        let w = &text[place..];
        let alike = |command: &str| {
            let common = w.len().min(command.len());
            w[..common] == command[..common]
        };
        let Some(which) = COMMANDS.iter().position(|command| alike(command)) else {
            return (13, place as u64);
        };
        let command = COMMANDS[which];
        if w.len() < command.len() {
            return (14, place as u64);
        }
        if before.is_some_and(|before| zeros < asked(before, which)) {
            return (15, place as u64);
        }
        before = Some(which);
        from = place + command.len();
    }
    (0, 0)
}

fn all_streams() -> impl Iterator<Item = String> {
    let text = |bits: usize, length: usize| match length {
        0 => String::new(),
        _ => format!("{bits:0length$b}"),
    };
    (0..=MOST).flat_map(move |length| (0..1 << length).map(move |bits| text(bits, length)))
}

#[test]
fn every_stream_of_up_to_18_bits() {
    let accepted = Accepted::all();
    let mut counts = BTreeMap::new();
    for text in all_streams() {
        let expected = by_the_words(&text);
        assert_eq!(expected == (0, 0), accepted.has(&text), "{text}");
        assert_eq!(judged(&text), expected, "{text}");
        *counts.entry(expected.0).or_insert(0) += 1;
    }
    let expected = [(0, 798), (13, 520_352), (14, 3_031), (15, 106)];
    assert_eq!(counts, BTreeMap::from(expected));
    assert_eq!(counts.values().sum::<u32>(), 524_287);
}

/// What the damage statement asks of a clean run: in RunMode the records of
/// an accepted stream are its commands, exact, none too close, and no other.
#[test]
fn an_accepted_stream_is_recorded_command_by_command() {
    let accepted = Accepted::all();
    let start = {
        let mut state = open(Plan::DEFAULT, 0).1;
        state.run_mode = true;
        state
    };
    let (mut store, mut tray) = (vec![0; 2_048], vec![0; 8_192]);
    let mut seen = 0;
    for text in all_streams().filter(|text| accepted.has(text)) {
        let (bytes, count) = packed(&text);
        let mut list = [0; 16];
        let state = start.clone();
        let answer = take(state, &bytes, 0, count, &mut store, &mut tray, &mut list, 0);
        let records = list.chunks(2).take(answer.records_written as usize);
        let mut rest = &text[..];
        for record in records {
            let record = Record::from_words([record[0], record[1]]);
            let kinds = [0x01, 0x11, 0x12, 0x14, 0x18];
            let which = kinds.iter().position(|&kind| kind == record.kind);
            let command = COMMANDS[which.expect("one of the five")];
            let ahead = rest.trim_start_matches('0');
            assert!(ahead.starts_with(command), "{text}");
            rest = &ahead[command.len()..];
            assert_eq!(record.time, (text.len() - rest.len() - 1) as u64, "{text}");
            assert_eq!(record.flags & (flag::FLIP | flag::TOO_CLOSE), 0, "{text}");
        }
        assert!(!rest.contains('1'), "{text}");
        seen += 1;
    }
    assert!(seen > 500, "{seen}");
}

/// The project's reading of the request.
#[test]
fn examples() {
    for text in ["1", "1011", "1110", "10110000", "1011010"] {
        assert_eq!(judged(text), (14, 0), "{text}");
        assert_eq!(judged(&format!("0000{text}")), (14, 4), "{text}");
        assert_eq!(judged(&format!("11101{text}")), (14, 5), "{text}");
    }
    let slow = "10110101110000000";
    for text in ["1010", "11100", "101100000", "10110101", slow] {
        assert_eq!(judged(text), (13, 0), "{text}");
        assert_eq!(judged(&format!("00{text}000")), (13, 2), "{text}");
        assert_eq!(judged(&format!("1110100{text}1")), (13, 7), "{text}");
    }
    let bcr = COMMANDS[BCR];
    assert_eq!(judged(&format!("{bcr}1011")), (14, 9));
    assert_eq!(judged(&format!("{bcr}0{bcr}")), (15, 10));
    assert_eq!(judged(&format!("{bcr}00{bcr}")), (0, 0));
    for count in [0, 1, 7, 8, 9, 1_000] {
        assert_eq!(judged(&"0".repeat(count)), (0, 0));
    }
}

/// Every two commands with up to six zeros between, and what is named where
/// the second is cut or hit.
#[test]
fn every_pair() {
    for (one, first) in COMMANDS.into_iter().enumerate() {
        for (other, second) in COMMANDS.into_iter().enumerate() {
            for zeros in 0..=6 {
                let between = "0".repeat(zeros);
                let place = (3 + first.len() + zeros) as u64;
                let ahead = format!("000{first}{between}");
                let verdict = match zeros < asked(one, other) {
                    true => (15, place),
                    false => (0, 0),
                };
                for after in ["", "0", "00000000"] {
                    let text = format!("{ahead}{second}{after}");
                    assert_eq!(judged(&text), verdict, "{text}");
                }
                for bits in 1..second.len() {
                    let text = format!("{ahead}{}", &second[..bits]);
                    assert_eq!(judged(&text), (14, place), "{text}");
                }
                // The first fault is named, whatever follows.
                let text = format!("{ahead}{second}0000001010");
                let later = place + second.len() as u64 + 6;
                let verdict = match verdict {
                    (0, 0) => (13, later),
                    fault => fault,
                };
                assert_eq!(judged(&text), verdict, "{text}");
            }
        }
    }
}

/// Number 5 comes first and names bit 0, whatever the bits are.
#[test]
fn ranges() {
    let input = [0xFF; 4];
    for (first, count) in [
        (0, 33),
        (1, 32),
        (32, 1),
        (33, 0),
        (u64::MAX, 0),
        (u64::MAX, 1),
        (u64::MAX, u64::MAX),
        (1, u64::MAX),
        (8, u64::MAX - 7),
        (0, u64::MAX),
    ] {
        assert_eq!(answer(accept(&input, first, count)), (5, 0));
    }
    assert_eq!(answer(accept(&input, 0, 32)), (13, 0));
    assert_eq!(answer(accept(&input, 31, 1)), (14, 0));
    assert_eq!(answer(accept(&input, 32, 0)), (0, 0));
    assert_eq!(answer(accept(&[], 0, 0)), (0, 0));
    assert_eq!(answer(accept(&[], 0, 1)), (5, 0));
    assert_eq!(answer(accept(&[], 1, 0)), (5, 0));
    let mut long = vec![0; 1_048_576];
    assert_eq!(answer(accept(&long, 0, 8_388_608)), (0, 0));
    assert_eq!(answer(accept(&long, 0, 8_388_609)), (5, 0));
    long[1_048_575] = 1;
    assert_eq!(answer(accept(&long, 0, 8_388_608)), (14, 8_388_607));
    assert_eq!(answer(accept(&long, 9, 8_388_599)), (14, 8_388_598));
    long.push(0);
    // One byte more, even for no bits of it.
    assert_eq!(answer(accept(&long, 0, 0)), (5, 0));
    assert_eq!(answer(accept(&long, 0, 8)), (5, 0));
}

/// Neither the bits ahead of a range nor those behind it matter.
#[test]
fn only_the_range_is_judged() {
    let mut random = Random::new(0xF8_01);
    for _ in 0..3_000 {
        let length = random.below(40) as usize;
        let bits: String = (0..length).map(|_| digit(random.one_in(3))).collect();
        let ahead = random.below(20) as usize;
        let behind = random.below(20) as usize;
        let any = |random: &mut Random, count: usize| -> String {
            (0..count).map(|_| digit(random.bit())).collect()
        };
        let text = any(&mut random, ahead) + &bits + &any(&mut random, behind);
        let (bytes, _) = packed(&text);
        let verdict = accept(&bytes, ahead as u64, length as u64);
        assert_eq!(answer(verdict), by_the_words(&bits));
    }
}

fn digit(bit: bool) -> char {
    match bit {
        true => '1',
        false => '0',
    }
}

fn text_of(stream: &Stream) -> String {
    stream.bits.iter().map(|&bit| digit(bit)).collect()
}

/// Long streams: accepted ones, and with each flaw.
#[test]
fn long_streams() {
    let mut counts = BTreeMap::new();
    for number in 0..2_100 {
        let mut random = Random::new(0xF8_0200 + number);
        let commands = 1 + random.below(120) as usize;
        let sent = pulses(&mut random, commands);
        assert_eq!(judged(&text_of(&sent.stream)), (0, 0));
        let flaw = Flaw::ALL[(number % 7) as usize];
        let flawed = text_of(&flaw.put_into(&sent, &mut random));
        let expected = by_the_words(&flawed);
        assert_eq!(judged(&flawed), expected, "{number}");
        *counts.entry((flaw as u8, expected.0)).or_insert(0) += 1;
    }
    let count = |flaw: Flaw, number| counts.get(&(flaw as u8, number)).copied().unwrap_or(0);
    assert_eq!(count(Flaw::Nothing, 0), 300);
    let inverted = count(Flaw::Inverted, 13) + count(Flaw::Inverted, 14);
    assert_eq!(inverted, 300, "{counts:?}");
    assert!(count(Flaw::ZeroMissing, 15) > 200, "{counts:?}");
    assert!(count(Flaw::Cut, 14) > 100, "{counts:?}");
    assert!(count(Flaw::Cut, 0) > 20, "{counts:?}");
    assert_eq!(count(Flaw::Slow, 13), 300, "{counts:?}");
    assert!(count(Flaw::FlippedLv1, 13) > 200, "{counts:?}");
    assert!(count(Flaw::Extra, 0) > 20, "{counts:?}");
    assert!(count(Flaw::Extra, 15) > 20, "{counts:?}");
}

/// An accepted stream with one zero fewer between two commands that need it,
/// and with each bit of its commands inverted, by where the fault is.
#[test]
fn where_the_fault_is() {
    for number in 0..100 {
        let mut random = Random::new(0xF8_0300 + number);
        let sent = pulses(&mut random, 40);
        for zero in sent.needed_zeros() {
            let mut stream = sent.stream.clone();
            stream.bits.remove(zero);
            // The command that came next has moved there.
            assert_eq!(judged(&text_of(&stream)), (15, zero as u64));
        }
        // A hit command is unknown. With its first bit lost it begins later,
        // with 110.
        for &(command, first) in &sent.sent {
            for bit in 0..command.bits() {
                let mut stream = sent.stream.clone();
                stream.bits[first + bit] ^= true;
                let later = match (bit, command) {
                    (0, Sent::Lv1) => 1,
                    (0, _) => 2,
                    _ => 0,
                };
                let place = (first + later) as u64;
                assert_eq!(judged(&text_of(&stream)), (13, place));
            }
        }
    }
}

/// No inverted bit leaves an accepted stream accepted.
#[test]
fn every_inverted_bit_is_found() {
    let mut cut = 0;
    for number in 0..60 {
        let mut random = Random::new(0xF8_0600 + number);
        let clean = pulses(&mut random, 30).stream;
        for place in 0..clean.bits.len() {
            let mut hit = clean.clone();
            hit.bits[place] ^= true;
            let (number, named) = judged(&text_of(&hit));
            assert!(number == 13 || number == 14, "{number}");
            // At the bit, or at the pattern that holds it, or just after.
            assert!(named + 9 > place as u64 && named <= place as u64 + 2);
            cut += u32::from(number == 14);
        }
    }
    // A one among the last zeros.
    assert!(cut > 20, "{cut}");
}

/// The streaming form, in whatever parts its bits come.
#[test]
fn a_judge_goes_on_where_it_stopped() {
    let mut random = Random::new(0xF8_0400);
    for number in 0..200 {
        let sent = pulses(&mut random, 12);
        let stream = Flaw::ALL[number % 7].put_into(&sent, &mut random);
        let whole = judged(&text_of(&stream));
        for cut in 0..=stream.bits.len() {
            let (now, later) = stream.bits.split_at(cut);
            let mut judge = Judge::start();
            let mut verdict = now.iter().try_for_each(|&bit| judge.take(bit));
            if verdict.is_ok() {
                assert_eq!(judge.taken(), cut as u64);
                assert_eq!(
                    answer(judge.finish()),
                    judged(&text_of(&Stream::new().raw(now)))
                );
                let mut copy = judge.clone();
                verdict = later.iter().try_for_each(|&bit| copy.take(bit));
                verdict = verdict.and_then(|()| copy.finish());
            }
            assert_eq!(answer(verdict), whole);
        }
    }
}

fn printed(input: &[u8]) -> String {
    let mut out = Vec::new();
    Program::Accept.list_all(input, &mut out).unwrap();
    String::from_utf8(out).unwrap()
}

/// The line for a stream's fault; none if it is accepted.
fn line((number, place): (u8, u64)) -> String {
    match number {
        0 => String::new(),
        _ => format!("!{number:02X} {place:012X}\n"),
    }
}

/// The program judges the lines' bits as one stream, wherever lines end. A
/// fault's line comes with the line in which it is found.
#[test]
fn lines_are_one_stream() {
    let mut random = Random::new(0xF8_0500);
    for number in 0..140 {
        let sent = pulses(&mut random, 6);
        let stream = ending_with_a_byte(&Flaw::ALL[number % 7].put_into(&sent, &mut random));
        let bytes = stream.bytes();
        let expected = line(judged(&text_of(&stream)));
        let digits: Vec<String> = bytes.iter().map(|byte| format!("{byte:02X}")).collect();
        for cut in 0..=bytes.len() {
            let (now, later) = (digits[..cut].concat(), digits[cut..].concat());
            for input in [format!("{now}\n{later}\n"), format!("{now}\n\n\n{later}")] {
                let long = now.len() > 64 || later.len() > 64;
                if !long {
                    assert_eq!(printed(input.as_bytes()), expected, "{input}");
                }
            }
            // A refused line hides a fault that is not known yet.
            if now.len() <= 64 {
                let judged_so_far = {
                    let mut judge = Judge::start();
                    let bits = &stream.bits[..8 * cut];
                    answer(bits.iter().try_for_each(|&bit| judge.take(bit)))
                };
                let refused = format!("{now}\nx\n{later}\n");
                let expected = match judged_so_far {
                    (0, _) => "!07 00000002\n".to_string(),
                    fault => line(fault),
                };
                assert_eq!(printed(refused.as_bytes()), expected, "{refused}");
            }
        }
        assert_eq!(printed((digits.join("\n") + "\n").as_bytes()), expected);
    }
}

/// What the program prints for the cases: each number, and what comes first.
#[test]
fn the_cases_of_the_program() {
    let all = fixed();
    let named = |name: &str| {
        let case = all
            .iter()
            .find(|case| case.name == format!("accept/{name}"));
        printed(&case.unwrap_or_else(|| panic!("{name}")).input)
    };
    for (name, expected) in [
        ("empty-input", ""),
        ("line-feeds-only", ""),
        ("zeros", ""),
        ("no-last-line-feed", ""),
        ("across-a-line", ""),
        ("across-empty-lines", ""),
        ("every-pair", ""),
        ("every-pair-by-bytes", ""),
        ("each-command-to-the-end", ""),
        ("cut-at-a-line-end", "!0E 000000000005\n"),
        ("cut-no-last-line-feed", "!0E 00000000000D\n"),
        ("cut-then-empty-lines", "!0E 00000000000D\n"),
        ("cut-too-close", "!0E 00000000000C\n"),
        ("cut-too-close-lv1", "!0E 00000000000C\n"),
        ("unknown-at-once", "!0D 000000000000\n"),
        ("unknown-across-a-line", "!0D 00000000000D\n"),
        ("unknown-no-last-line-feed", "!0D 000000000008\n"),
        ("unknown-ahead-of-a-wrong-line", "!0D 000000000000\n"),
        ("unknown-then-close", "!0D 000000000000\n"),
        ("close-across-a-line", "!0F 00000000000A\n"),
        ("close-no-last-line-feed", "!0F 000000000012\n"),
        ("close-then-unknown", "!0F 00000000000A\n"),
        ("close-ahead-of-an-odd-line", "!0F 00000000000A\n"),
        ("line-wrong-after-accepted", "!07 00000002\n"),
        ("line-wrong-with-unknown-bits", "!07 00000002\n"),
        ("line-odd-with-unknown-bits", "!08 00000001\n"),
        ("line-wrong-inside-a-pattern", "!07 00000002\n"),
        ("line-odd-inside-a-pattern", "!08 00000002\n"),
        ("line-odd-after-empty-lines", "!08 00000004\n"),
        ("long-zeros", ""),
        ("long-far", "!0D 000000138808\n"),
        ("long-far-cut", "!0E 000000138807\n"),
    ] {
        assert_eq!(named(name), expected, "{name}");
    }
    // By their names.
    for case in all.iter().filter(|case| case.name.starts_with("accept/")) {
        let name = &case.name["accept/".len()..];
        let printed = printed(&case.input);
        let number = printed.get(..3).unwrap_or("");
        let begins = |words: &[&str]| words.iter().any(|word| name.starts_with(word));
        let expected = if begins(&["line-wrong"]) {
            "!07"
        } else if begins(&["line-odd"]) {
            "!08"
        } else if begins(&["cut-by-lines"]) {
            ""
        } else if begins(&["unknown-", "hit-", "blocks-unknown", "long-far"]) {
            "!0D"
        } else if begins(&["cut-", "blocks-cut"]) {
            "!0E"
        } else if begins(&["close-", "blocks-close", "after-a-block"]) {
            "!0F"
        } else {
            ""
        };
        let other = [
            "long-far-cut",
            "blocks-cut-and-more",
            "close-after-a-bad-fast",
        ];
        if !other.contains(&name) {
            assert_eq!(number, expected, "{name}");
        }
    }
    let mut numbers = BTreeMap::new();
    for case in pulsed(200) {
        let number = printed(&case.input).get(1..3).map(str::to_string);
        *numbers.entry(number.unwrap_or_default()).or_insert(0) += 1;
    }
    let expected = ["", "07", "08", "0D", "0E", "0F"];
    assert!(numbers.keys().eq(expected.iter()), "{numbers:?}");
    assert!(numbers.values().all(|&count| count >= 3), "{numbers:?}");
}

/// In words, as standard error has them.
#[test]
fn faults_in_words() {
    let said = |why| Fault { why, place: 12 }.to_string();
    assert_eq!(
        said(WhyNot::Unknown),
        "bit 12: the bits from here on begin none of LV1, BCR, ECR, CAL and SYNC"
    );
    assert_eq!(
        said(WhyNot::Cut),
        "bit 12: the input ends inside the command that begins here"
    );
    assert_eq!(
        said(WhyNot::TooClose),
        "bit 12: too few zeros lie ahead of the command that begins here"
    );
}
