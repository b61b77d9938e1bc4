//! What the separate reader's programs print for the cases.

use cases::{composed, crowded, fixed, generated, golden, hits, noisy, pulsed, replied, Case};
use compare::golden::files;
use compare::printed::printed;
use reader::{hex_line, model, reading, station, Program};
use std::collections::HashSet;

fn lines_of(input: &[u8]) -> impl Iterator<Item = &[u8]> {
    input.split(|&byte| byte == b'\n')
}

#[test]
fn the_three_outputs_agree() {
    let text = |bytes: Vec<u8>| String::from_utf8(bytes).unwrap();
    let mut refused = HashSet::new();
    let listed = [
        fixed(),
        generated(40),
        noisy(40),
        crowded(40),
        hits(40),
        pulsed(40),
        composed(40),
        replied(40),
    ];
    for case in listed.concat() {
        let (mut one, mut two, mut three) = (Vec::new(), Vec::new(), Vec::new());
        station(&case.input[..], &mut one).unwrap();
        reading(&case.input[..], &mut two).unwrap();
        model(&case.input[..], &mut three).unwrap();
        let (one, two, three) = (text(one), text(two), text(three));
        let records = one.lines().filter(|line| !line.starts_with('>'));
        assert!(records.eq(two.lines()), "{}", case.name);
        let state = three.strip_prefix(&two).unwrap();
        assert!(state.starts_with("register 0 "), "{}", case.name);
        let refusal = two.lines().find(|line| line.starts_with('!'));
        // Streams for `accept` have refused lines behind faults, those for
        // `reply` behind replies, and orders are no digits.
        let of_accept = ["accept/", "pulse-streams/"];
        let of_accept = of_accept.iter().any(|folder| case.name.starts_with(folder));
        let named = match of_accept || case.count.is_some() || case.holds_orders() {
            true => lines_of(&case.input).any(|line| hex_line(line).is_err()),
            false => case.name.starts_with("refusals/"),
        };
        assert_eq!(refusal.is_some(), named, "{}", case.name);
        refused.extend(refusal.map(|line| line[1..3].to_string()));
    }
    assert_eq!(refused, HashSet::from(["07".to_string(), "08".to_string()]));
}

/// The marked streams stand behind EnDataTake, and the zeros that fill up
/// the byte ahead of them instead of after them leave their records alone.
#[test]
fn marked_cases() {
    let expected = [
        (1, "000000000017 01 05 00000017\n"),
        (2, "000000000017 01 07 00050017\n"),
        (4, ""),
        (
            6,
            "00000000001B 01 05 0000001B\n00000000001F 01 27 0001011F\n",
        ),
        (7, "00000000001F 11 01 00000000\n"),
        (8, "00000000001F 1F 00 00000009\n"),
        (11, "00000000001D 01 07 0003001D\n"),
        (
            12,
            "000000000019 01 07 00020019\n00000000001E 01 07 0002011E\n",
        ),
        (13, "000000000027 2F 00 0000000B\n"),
        (14, "000000000027 24 01 00000000\n"),
    ];
    for (number, lines) in expected {
        let start = format!("marked/{number:02}-");
        let fits = |name: &str| name.starts_with(&start) && name.ends_with("-whole");
        let case = fixed().into_iter().find(|case| fits(&case.name)).unwrap();
        let mut out = Vec::new();
        station(&case.input[..], &mut out).unwrap();
        let expected = format!("000000000010 28 01 00000000\n{lines}");
        assert_eq!(String::from_utf8(out).unwrap(), expected, "{start}");
    }
}

/// Golden files are few kilobytes of text, and have each number of a line.
#[test]
fn golden_files_are_short() {
    let mut refused = Vec::new();
    for case in golden() {
        for (path, contents) in files(&case) {
            let text = String::from_utf8(contents).unwrap();
            assert!(text.len() < 3_000, "{}", path.display());
            let lines = text.lines().filter_map(|line| line.strip_prefix('!'));
            refused.extend(lines.map(|line| line[..2].to_string()));
        }
        assert!(
            case.input.is_ascii() && case.input.len() < 1_000,
            "{}",
            case.name
        );
    }
    for number in ["07", "08", "09", "0A", "0B", "0D", "0E", "0F"] {
        assert!(refused.iter().any(|refused| refused == number));
    }
}

/// Hexadecimal lines are no orders, but for lines that are empty.
#[test]
fn compose_refuses_what_the_others_read() {
    let is_digits = |case: &Case| !case.holds_orders() && case.input.is_ascii();
    for case in fixed().into_iter().filter(is_digits) {
        let blank = |c: &u8| b"\n\r\t ".contains(c);
        let printed = String::from_utf8(printed(Program::Compose, &case.input)).unwrap();
        let refused = printed.starts_with("!09 ");
        assert_eq!(refused, !case.input.iter().all(blank), "{}", case.name);
        assert!(refused || printed.is_empty(), "{}", case.name);
    }
}
