//! The situations in which programs are started: that none disturbs another,
//! what they cover, and that the separate reader's own programs, which meet
//! the real system, do in each what is imagined.

mod common;

use common::readers_programs;
use compare::programs::ended::End;
use compare::programs::faults::Faults;
use compare::programs::scratch::Scratch;
use compare::programs::situation::{Output, Situation};
use compare::programs::situations::{situations, Means};
use compare::programs::under_test::UnderTest;
use compare::programs::{pool, started};
use compare::tally::Tally;
use reader::Program;
use std::collections::{BTreeSet, HashSet};

/// Each has a name and a file of its own, as they are run at the same time.
#[test]
fn each_has_its_own_name_and_file() {
    let (mut names, mut files) = (HashSet::new(), HashSet::new());
    for situation in situations(Means::ALL) {
        assert!(names.insert(situation.name.clone()), "{}", situation.name);
        assert!(files.insert(situation.file), "{}", situation.name);
    }
    for taken in ["folder", "loop", "faults.so"] {
        assert!(!files.contains(taken.as_bytes()));
    }
}

#[test]
fn every_end_and_every_message_is_among_them() {
    let mut ends = BTreeSet::new();
    let mut said = String::new();
    for situation in situations(Means::ALL) {
        for program in situation.programs.iter() {
            let expected = situation.expected(*program);
            ends.insert(expected.end.to_string());
            said += &String::from_utf8_lossy(&expected.said);
        }
    }
    let statuses = [0, 1, 2, 3].map(End::Status);
    let expected = statuses.into_iter().chain([End::Signal(13)]);
    assert!(ends.into_iter().eq(expected.map(|end| end.to_string())));
    for text in [
        "usage: model [FILE]\n",
        "station: : No such file or directory\n",
        "reading: missing.hex: No such file or directory\n",
        "model: /dev/null/a.hex: Not a directory\n",
        "model: loop: Too many levels of symbolic links\n",
        "station: folder: Is a directory\n",
        "station: argument: File name too long\n",
        "station: standard input: Is a directory\n",
        "reading: standard input: Bad file descriptor\n",
        "model: standard input: Input/output error\n",
        "station: standard output: Bad file descriptor\n",
        "station: standard output: No space left on device\n",
        "reading: standard output: File too large\n",
        "model: standard output: Input/output error\n",
        "model: standard input: line 2: character 1 is a lower-case letter\n",
        "station: standard input: line 2: character 2 is byte 80, none of 0-9 and A-F\n",
        "station: standard input: line 2: the count of digits is 3, which is odd\n",
        "usage: accept [FILE]\n",
        "accept: missing.hex: No such file or directory\n",
        "accept: standard input: Bad file descriptor\n",
        "accept: standard input: Input/output error\n",
        "accept: standard output: No space left on device\n",
        "accept: standard output: Input/output error\n",
        "accept: standard input: bit 8: the bits from here on begin none of ",
        "accept: standard input: bit 13: the input ends inside the command that begins here\n",
        "accept: standard input: bit 10: too few zeros lie ahead of the command that begins here\n",
        "accept: standard input: line 3: character 1 is a lower-case letter\n",
        "accept: standard input: line 2: character 2 is byte 80, none of 0-9 and A-F\n",
        "usage: compose [FILE]\n",
        "compose: missing.txt: No such file or directory\n",
        "compose: standard input: Bad file descriptor\n",
        "compose: standard input: Input/output error\n",
        "compose: standard output: No space left on device\n",
        "compose: standard output: Input/output error\n",
        "compose: standard input: line 1: no command has this name\n",
        "compose: standard input: line 2: a field is no number of its size\n",
        "compose: standard input: line 2: the command has another count of fields\n",
        "compose: standard input: line 2: CNT asks for 0 frame bits, and the line gives 8\n",
        "compose: standard input: line 2: the timing table asks for 2 zeros ahead of this command, and the line gives 1\n",
        "compose: standard input: the stream is longer than 1048576 bytes\n",
        "usage: reply COUNT [FILE]\n",
        "reply: missing.hex: No such file or directory\n",
        "reply: argument: File name too long\n",
        "reply: folder: Is a directory\n",
        "reply: standard input: Bad file descriptor\n",
        "reply: standard input: Input/output error\n",
        "reply: standard output: No space left on device\n",
        "reply: standard output: File too large\n",
        "reply: standard output: Input/output error\n",
        "reply: standard input: no header 11101\n",
        "reply: standard input: cut short: 0 of 1 bits\n",
        "reply: standard input: cut short: 2 of 8191 bits\n",
        "reply: standard input: line 2: character 2 is a lower-case letter\n",
        "reply: standard input: line 2: character 2 is byte 80, none of 0-9 and A-F\n",
        "reply: standard input: line 3: the count of digits is 1, which is odd\n",
    ] {
        assert!(said.contains(text), "{text}");
    }
    assert!(!said.contains("Broken pipe"));
}

/// An interrupted closing is none that has failed.
#[test]
fn an_interrupted_closing_says_nothing() {
    let all = situations(Means::ALL);
    let found = |name: &str| all.iter().find(|s| s.name == name).expect(name);
    for (what, status) in [("good", 0), ("--help", 0), ("refused", 1)] {
        let interrupted = found(&format!("closing is interrupted, {what}"));
        let failed = found(&format!("closing fails, {what}"));
        for program in Program::LISTING {
            let expected = interrupted.expected(program);
            assert_eq!(expected.end, End::Status(status));
            assert_eq!(expected.said.is_empty(), status == 0);
            assert_eq!(failed.expected(program).end, End::Status(3));
        }
    }
}

/// The system has no text for a write that takes nothing.
#[test]
fn a_write_of_nothing_ends_the_run() {
    let mut ended = 0;
    for situation in situations(Means::ALL) {
        let Some(at) = situation.faults.write_stops_at else {
            continue;
        };
        for program in Program::LISTING {
            if !situation.programs.contains(&program) {
                continue;
            }
            let expected = situation.expected(program);
            let (begins, status) = match at {
                5_000 => (String::new(), 0),
                _ => (format!("{}: standard output: ", program.name()), 3),
            };
            assert_eq!(expected.end, End::Status(status), "{}", situation.name);
            assert_eq!(expected.said, begins.as_bytes(), "{}", situation.name);
            assert_eq!(expected.own_reason, status == 3);
            assert!(status == 0 || expected.printed.len() == at);
            ended += usize::from(status == 3);
        }
    }
    assert!(ended >= 24, "{ended}");
}

/// `model` prints no state where a read has failed.
#[test]
fn no_state_after_a_failed_read() {
    let all = situations(Means::ALL);
    let failed = all.iter().filter(|situation| {
        let at = situation.faults.read_fails_at;
        let lists = situation.programs.contains(&Program::Model);
        at.is_some() && lists && !situation.contents.contains(&b'e')
    });
    let mut seen = 0;
    for situation in failed {
        let expected = situation.expected(Program::Model);
        assert_eq!(expected.end, End::Status(3), "{}", situation.name);
        let printed = String::from_utf8(expected.printed).unwrap();
        assert!(!printed.contains("register"), "{}", situation.name);
        seen += 1;
    }
    assert!(seen >= 30, "{seen}");
}

/// `accept` in each of its own: a failed read is no end of the stream, a write
/// that takes nothing ends the run, and only what is printed can fail.
#[test]
fn what_accept_does_where_the_system_fails() {
    let all = situations(Means::ALL);
    let expected = |name: &str| {
        let situation = all.iter().find(|situation| situation.name == name);
        let expected = situation.expect(name).expected(Program::Accept);
        let printed = String::from_utf8(expected.printed).unwrap();
        (printed, expected.end)
    };
    let ends = |printed: &str, status| (printed.to_string(), End::Status(status));
    for (name, outcome) in [
        ("cut, named", ends("!0E 00000000000D\n", 1)),
        ("cut, a read fails at 6", ends("", 3)),
        ("cut, a read fails at 2", ends("", 3)),
        ("accepted, a read fails at 9", ends("", 3)),
        ("accepted, standard output full", ends("", 0)),
        ("accepted, standard output closed", ends("", 0)),
        ("accepted, a write takes nothing at 0", ends("", 0)),
        ("accepted, closing fails", ends("", 3)),
        ("unknown, a read fails at 5", ends("", 3)),
        ("unknown, a read fails at 6", ends("!0D 000000000008\n", 1)),
        ("unknown, a write fails at 5", ends("!0D 0", 3)),
        (
            "unknown, a write takes nothing at 12",
            ends("!0D 00000000", 3),
        ),
        (
            "unknown, closing is interrupted",
            ends("!0D 000000000008\n", 1),
        ),
        ("too close, standard output full", ends("", 3)),
        ("a line inside a pattern, named", ends("!07 00000003\n", 1)),
        (
            "a line behind a fault, named",
            ends("!0D 000000000008\n", 1),
        ),
    ] {
        let (printed, end) = expected(&format!("stream {name}"));
        assert_eq!((printed, end), outcome, "{name}");
    }
    // The others are its situations too.
    let of_all = all
        .iter()
        .filter(|situation| situation.programs == Program::ALL);
    let of_accept = all.iter().filter(|s| s.programs == [Program::Accept]);
    let (of_all, of_accept) = (of_all.count(), of_accept.count());
    assert!(of_all > 200 && of_accept > 700, "{of_all} {of_accept}");
}

/// `compose` in each of its own: a failed read is no end of the text, of which
/// nothing is composed then, and only what is printed can fail.
#[test]
fn what_compose_does_where_the_system_fails() {
    let all = situations(Means::ALL);
    let expected = |name: &str| {
        let situation = all.iter().find(|situation| situation.name == name);
        let expected = situation.expect(name).expected(Program::Compose);
        let printed = String::from_utf8(expected.printed).unwrap();
        (printed, expected.end)
    };
    let ends = |printed: &str, status| (printed.to_string(), End::Status(status));
    let composed = "B5C0745840\n";
    for (name, outcome) in [
        ("composed, named", ends(composed, 0)),
        ("composed, a read fails at 35", ends("", 3)),
        ("composed, a read fails at 13", ends("", 3)),
        ("composed, standard output full", ends("", 3)),
        ("composed, a write fails at 5", ends("B5C07", 3)),
        ("composed, a write takes nothing at 1", ends("B", 3)),
        ("composed, closing fails", ends(composed, 3)),
        ("composed, closing is interrupted", ends(composed, 0)),
        ("wrong, named", ends("!09 00000002\n", 1)),
        ("wrong, a read fails at 7", ends("", 3)),
        ("wrong, a read fails at 8", ends("!09 00000002\n", 1)),
        ("wrong, no last line feed, a read fails at 18", ends("", 3)),
        ("too close, standard output closed", ends("", 3)),
        ("too close, a write fails at 5", ends("!0A 0", 3)),
        // That it is too long is known at the end only.
        ("too long, named", ends("!0B 00000000\n", 1)),
        ("too long, a read fails at 12", ends("", 3)),
        ("no orders, standard output full", ends("", 0)),
        ("of no bytes, a write takes nothing at 0", ends("", 0)),
    ] {
        let (printed, end) = expected(&format!("orders {name}"));
        assert_eq!((printed, end), outcome, "{name}");
    }
    // More than a pipe holds, so that a reader that leaves is noticed.
    let (printed, end) = expected("large orders composed, named");
    assert!(printed.len() > 500_000 && end == End::Status(0));
    let of_compose = all.iter().filter(|s| s.programs == [Program::Compose]);
    assert!(of_compose.count() > 1_500);
}

const WHOLE: &str = "whole 0001\n>80\n";

/// Situations of `reply`, what it prints there, and its status.
const REPLIES: [(&str, &str, i32); 23] = [
    ("reply whole, named", WHOLE, 0),
    ("reply whole, a read fails at 5", "", 3),
    ("reply whole, a read fails at 6", WHOLE, 0),
    ("reply whole, standard output full", "", 3),
    ("reply whole, a write fails at 5", "whole", 3),
    (
        "reply whole, a write takes nothing at 11",
        "whole 0001\n",
        3,
    ),
    ("reply whole, closing fails", WHOLE, 3),
    ("reply whole, closing is interrupted", WHOLE, 0),
    ("reply cut short, named", "cut short 0001\n>80\n", 1),
    ("reply cut short, a read fails at 6", "", 3),
    ("reply cut short with no bits, named", "cut short 0000\n", 1),
    ("reply with no header, named", "no header\n", 1),
    ("reply with no header, standard output closed", "", 3),
    ("reply of no bytes, a read fails at 0", "", 3),
    (
        "reply with a wrong line, a read fails at 6",
        "!07 00000002\n",
        1,
    ),
    ("reply with an odd line, a read fails at 7", "", 3),
    ("reply of 01 bits, named", WHOLE, 0),
    ("reply with wrong words [\"00001\"]", "", 2),
    ("reply with wrong words [\"0\", \"missing.hex\"]", "", 2),
    ("reply with a wrong count and a long word", "", 2),
    ("reply with a count and a long word", "", 3),
    (
        "large reply whole with a block, a read fails at 65535",
        "",
        3,
    ),
    (
        "large reply whole with a block, a read fails at 65536",
        "whole 0003\n>A0\n",
        0,
    ),
];

/// A failed read is no end of the input, but nothing is read behind a whole
/// reply; words are looked at ahead of all.
#[test]
fn what_reply_does_where_the_system_fails() {
    let all = situations(Means::ALL);
    for (name, printed, status) in REPLIES {
        let situation = all.iter().find(|situation| situation.name == name);
        let expected = situation.expect(name).expected(Program::Reply);
        let outcome = (String::from_utf8(expected.printed).unwrap(), expected.end);
        assert_eq!(
            outcome,
            (printed.to_string(), End::Status(status)),
            "{name}"
        );
    }
    let of_reply = all.iter().filter(|s| s.programs == [Program::Reply]);
    assert!(of_reply.count() > 1_500);
}

/// The programs in Rattle are not told of a failed closing, meet a closed pipe
/// as an error, and open no file whose name is no text. All else is the same.
#[test]
fn what_the_library_does_not_show() {
    let [mut closings, mut pipes, mut names] = [0; 3];
    for situation in situations(Means::ALL) {
        for program in situation.programs.iter() {
            let expected = situation.expected(*program);
            let by_library = situation.expected_by_library(*program);
            if expected == by_library {
                continue;
            }
            let name = &situation.name;
            match (expected.end, by_library.end) {
                (End::Signal(13), End::Status(3)) => {
                    assert_eq!(by_library.said, b"", "{name}");
                    pipes += 1;
                }
                (_, End::Status(3)) => {
                    assert!(situation.names_no_text(), "{name}");
                    let reason = b": Invalid or incomplete multibyte or wide character\n";
                    assert!(by_library.said.ends_with(reason), "{name}");
                    names += 1;
                }
                (end, _) => {
                    assert!(situation.faults.close_error.is_some(), "{name}");
                    assert_eq!(end, End::Status(3), "{name}");
                    closings += 1;
                }
            }
        }
    }
    assert!(
        closings > 20 && pipes > 20 && names > 10,
        "{closings} {pipes} {names}"
    );
}

/// Without gcc no call can be made to fail, and not everybody may mount.
#[test]
fn those_that_need_no_means() {
    let none = Means {
        faults: false,
        disk: false,
    };
    let without = situations(none);
    assert!(without.len() > 300 && without.len() + 40 < situations(Means::ALL).len());
    assert!(without.iter().all(|s| s.faults == Faults::NONE));
    let on_disk = |s: &Situation| matches!(s.output, Output::Disk(_));
    assert!(!without.iter().any(on_disk) && situations(Means::ALL).iter().any(on_disk));
}

#[test]
fn the_readers_programs_pass_in_each() {
    let programs = UnderTest::new(&readers_programs(), true);
    let scratch = Scratch::new().unwrap();
    let all = situations(Means::prepare(&scratch).unwrap());
    let mut tally = Tally::default();
    for checks in pool::each(&all, |s| started::check(&programs, s, &scratch)) {
        tally.add(checks);
    }
    assert!(tally.all_passed(), "{tally}");
}
