//! The program `reply` (document 02, F-12) on texts: lines as one stream, where
//! its run ends, and what it prints.

mod common;

use cases::Random;
use common::replies::*;
use reader::{reply, DataBits, NotWhole, Reply};
use std::collections::BTreeMap;

/// What the program prints for a text.
fn printed(expected: u64, input: &[u8]) -> String {
    let mut out = Vec::new();
    let expected = DataBits::new(expected).expect("a fit count");
    reply(expected, input, &mut out).unwrap();
    String::from_utf8(out).unwrap()
}

/// The lines of an answer, once the input has ended.
fn lines_of(range: &[bool], expected: u64) -> String {
    let (answer, complete) = by_the_words(range, expected as usize);
    let count = complete.len();
    let first = match answer {
        Reply::Whole => format!("whole {count:04X}\n"),
        Reply::NoHeader => "no header\n".to_string(),
        Reply::CutShort(_) => format!("cut short {count:04X}\n"),
    };
    let digits: String = packed(&complete)
        .iter()
        .map(|byte| format!("{byte:02X}"))
        .collect();
    match digits.is_empty() {
        true => first,
        false => format!("{first}>{digits}\n"),
    }
}

#[test]
fn texts_by_hand() {
    for (expected, text, printed_lines) in [
        (1, "", "no header\n"),
        (1, "\n", "no header\n"),
        (1, "00\n\n0000", "no header\n"),
        (1, "E8", "cut short 0000\n"),
        (1, "E8\n", "cut short 0000\n"),
        (1, "1D\n7F\n", "whole 0001\n>80\n"),
        (1, "1D\n7F", "whole 0001\n>80\n"),
        (16, "1D\n7F", "cut short 0001\n>80\n"),
        // The header and a group across lines, and across empty ones.
        (1, "07\n\n4F\n", "cut short 0000\n"),
        (1, "07\n\n\n43\nC0\n", "whole 0001\n>00\n"),
        (1, "07\n7F\nC0\n", "whole 0001\n>80\n"),
        (2, "1DFF\n\n00\n", "whole 0002\n>80\n"),
        (8, "1DFF00FF00FF00FF00\n", "whole 0008\n>AA\n"),
        (9, "1DFF00FF00FF00FF00\n", "cut short 0008\n>AA\n"),
        (9, "1DFF00FF00FF00FF\n00FF", "whole 0009\n>AA80\n"),
        (3, "1DF00F1F\n", "whole 0003\n>A0\n"),
        // Whole: what follows is not looked at.
        (1, "1D7F\nx\n", "whole 0001\n>80\n"),
        (1, "1D7F\n0\n", "whole 0001\n>80\n"),
        (1, "1D7F0000\n1DFF\n", "whole 0001\n>80\n"),
        // A refused line first: no answer.
        (1, "1D\n7f\n", "!07 00000002\n"),
        (1, "1D\n\n7\n", "!08 00000003\n"),
        (1, "1D7Fx\n", "!07 00000001\n"),
        (1, "1D7F0\n", "!08 00000001\n"),
        (1, "1D7F0", "!08 00000001\n"),
        (2, "1D7F\n x", "!07 00000002\n"),
        (1, "x\n1D7F\n", "!07 00000001\n"),
    ] {
        assert_eq!(printed(expected, text.as_bytes()), printed_lines, "{text}");
    }
    for (digits, printed_lines) in [(64, "whole 00F7\n"), (66, "!08 00000002\n")] {
        let mut text = "1D\n".to_string() + &"F".repeat(digits) + "\n";
        text += &("F".repeat(64) + "\n").repeat(7);
        let printed = printed(247, text.as_bytes());
        assert!(printed.starts_with(printed_lines), "{printed}");
    }
}

/// The greatest reply, in lines of all lengths.
#[test]
fn the_greatest_reply() {
    let mut random = Random::new(0xF12_0007);
    let data = random_bits(&mut random, 8_191);
    let range = [bits("000"), bits(HEADER), eight_each(&data)].concat();
    let bytes = packed(&range);
    for length in [1, 2, 31, 32] {
        let digits = |line: &[u8]| -> String {
            let digits: String = line.iter().map(|byte| format!("{byte:02X}")).collect();
            digits + "\n"
        };
        let text: String = bytes.chunks(length).map(digits).collect();
        let whole = lines_of(&range, 8_191);
        assert!(whole.starts_with("whole 1FFF\n>"));
        assert_eq!(printed(8_191, text.as_bytes()), whole);
        let cut = &text[..text.len() - 3];
        let short = lines_of(&range[..range.len() - 8], 8_191);
        assert!(short.starts_with("cut short 1FFE\n>"));
        assert_eq!(printed(8_191, cut.as_bytes()), short);
    }
}

/// The program reads the lines' bits as one stream, wherever lines end, and
/// ends with the line in which the reply is whole.
#[test]
fn lines_are_one_stream() {
    let mut random = Random::new(0xF12_0008);
    let mut ended = BTreeMap::new();
    for number in 0..300 {
        let mut range = match number % 3 {
            0 => any_input(&mut random),
            _ => Sent::new(&mut random, 6).stream,
        };
        range.truncate(512);
        range.resize(range.len().next_multiple_of(8), false);
        let bytes = packed(&range);
        let expected = 1 + random.below(6);
        let digits: Vec<String> = bytes.iter().map(|byte| format!("{byte:02X}")).collect();
        let by_bytes = digits.join("\n");
        let all = lines_of(&range, expected);
        assert_eq!(printed(expected, by_bytes.as_bytes()), all);
        for cut in 0..=bytes.len() {
            let (now, later) = (digits[..cut].concat(), digits[cut..].concat());
            if now.len() > 64 || later.len() > 64 {
                continue;
            }
            for text in [
                format!("{now}\n{later}\n"),
                format!("{now}\n{later}"),
                format!("{now}\n\n\n{later}\n\n"),
            ] {
                assert_eq!(printed(expected, text.as_bytes()), all, "{text}");
            }
            // A refused line hides what is not whole yet, and only that.
            let so_far = &range[..8 * cut];
            let whole = by_the_words(so_far, expected as usize).0 == Reply::Whole;
            for (wrong, refused) in [("x", "!07"), ("0", "!08"), ("1d", "!07")] {
                let text = format!("{now}\n{wrong}\n{later}\n");
                let lines = match whole {
                    true => lines_of(so_far, expected),
                    false => format!("{refused} 00000002\n"),
                };
                assert_eq!(printed(expected, text.as_bytes()), lines, "{text}");
                *ended.entry(whole).or_insert(0) += 1;
            }
        }
    }
    assert!(ended.values().all(|&count| count > 1_000), "{ended:?}");
}

/// As standard error has them.
#[test]
fn reasons_in_words() {
    assert_eq!(NotWhole::NoHeader.to_string(), "no header 11101");
    for (complete, expected, text) in [
        (3, 8, "cut short: 3 of 8 bits"),
        (0, 1, "cut short: 0 of 1 bits"),
        (8_190, 8_191, "cut short: 8190 of 8191 bits"),
    ] {
        let cut = NotWhole::CutShort { complete, expected };
        assert_eq!(cut.to_string(), text);
    }
}
