//! The text of orders that `compose` reads (document 02, F-2): every form of a
//! line, every reason to refuse one, and texts as the program takes them.

use cases::generate::Addresses;
use cases::order_texts::{plain_text, random_text, TextFlaw};
use cases::orders::{lent, random_orders, stream_of, Lent};
use cases::{composed, fixed, Case, Random, Stream};
use reader::order_line::{LINE_CHARACTERS, STREAM_BYTES};
use reader::{compose, order_line, station, Order, Plan, Program, Unfit, WrongLine, WrongOrders};
use std::collections::BTreeMap;

/// A line's order in words: kind, zeros, address, value; and its frame's bits
/// as 0 and 1.
type Told = (u8, u64, u8, u32, String);

fn told(order: &Order) -> Told {
    let bits = order.frame.each().map(|bit| if bit { '1' } else { '0' });
    let (kind, zeros) = (order.kind, order.zeros);
    (kind, zeros, order.address, order.value, bits.collect())
}

fn read(line: &str) -> Result<Option<Told>, WrongLine> {
    order_line(line.as_bytes()).map(|order| order.as_ref().map(told))
}

fn plain(kind: u8, zeros: u64, address: u8, value: u32) -> Result<Option<Told>, WrongLine> {
    Ok(Some((kind, zeros, address, value, String::new())))
}

fn framed(kind: u8, zeros: u64, bits: &str) -> Result<Option<Told>, WrongLine> {
    Ok(Some((kind, zeros, 0, 0, bits.to_string())))
}

#[test]
fn every_name() {
    for (line, kind, address, value) in [
        ("lv1", 0x01, 0, 0),
        ("bcr", 0x11, 0, 0),
        ("ecr", 0x12, 0, 0),
        ("cal", 0x14, 0, 0),
        ("sync", 0x18, 0, 0),
        ("wr-register A 1234", 0x20, 0xA, 0x1234),
        ("rd-register A", 0x21, 0xA, 0),
        ("wr-fifo 5ABCDEF", 0x22, 0, 0x5AB_CDEF),
        ("rd-fifo A", 0x23, 0xA, 0),
        ("en-data-take", 0x28, 0, 0),
        ("global-reset-mcc", 0x29, 0, 0),
        ("global-reset-fe 9", 0x2A, 0, 9),
    ] {
        assert_eq!(read(line), plain(kind, 0, address, value), "{line}");
        for (zeros, word) in [(0, "0"), (7, "7"), (7, "007"), (8_388_608, "8388608")] {
            let line = format!("{line} {word}");
            assert_eq!(read(&line), plain(kind, zeros, address, value), "{line}");
        }
    }
    for (name, kind) in [
        ("wr-front-end", 0x24),
        ("rd-front-end", 0x25),
        ("wr-receiver", 0x26),
    ] {
        for (word, bits) in [
            ("5C8:9", "010111001"),
            ("5c8:9", "010111001"),
            ("5C8:009", "010111001"),
            ("5CF:9", "010111001"),
            ("5CFFFFFFFF:9", "010111001"),
            ("5C8", "010111001000"),
            ("A", "1010"),
            ("A5", "10100101"),
            ("A5:8", "10100101"),
            ("A5:1", "1"),
            (":0", ""),
            ("0:0", ""),
            ("FFF:000", ""),
        ] {
            let line = format!("{name} {word}");
            assert_eq!(read(&line), framed(kind, 0, bits), "{line}");
            let line = format!("{name} {word} 12");
            assert_eq!(read(&line), framed(kind, 12, bits), "{line}");
        }
    }
}

#[test]
fn blanks_and_comments() {
    for line in [
        "", " ", "\t", "\r", " \t\r ", "#", "# lv1", "  #lv1 1", "##",
    ] {
        assert_eq!(read(line), Ok(None), "{line:?}");
    }
    for line in [
        "lv1 3",
        " lv1 3",
        "lv1\t3",
        "lv1 3\r",
        "\r\t lv1 \r 3 \t\r",
        "lv1 3#",
        "lv1 3# 4 5 6",
        "lv1 3 # a comment # another",
        "lv1 3 #\u{FC}\0",
    ] {
        assert_eq!(read(line), plain(0x01, 3, 0, 0), "{line:?}");
    }
    assert_eq!(read("lv1#3"), plain(0x01, 0, 0, 0));
    // Other characters make words.
    for line in ["lv1\u{B}3", "lv1\u{C}", "lv1\0", "lv1\u{A0}", "\u{FEFF}lv1"] {
        assert_eq!(read(line), Err(WrongLine::Name), "{line:?}");
    }
    assert_eq!(order_line(b"lv1\xA0 3"), Err(WrongLine::Name));
    assert_eq!(order_line(b"\xFF"), Err(WrongLine::Name));
}

#[test]
fn names_that_no_command_has() {
    for name in [
        "LV1",
        "Lv1",
        "lv",
        "lv11",
        "l",
        "1",
        "01",
        "28",
        "bcr,",
        "bad-fast",
        "wr_register",
        "wr-registers",
        "en-datatake",
        "reset-mcc",
        "wrregister",
        "-",
        "5C8:9",
        "B5C074",
    ] {
        assert_eq!(read(name), Err(WrongLine::Name), "{name}");
        // Whatever follows it.
        assert_eq!(read(&format!("{name} x y z z")), Err(WrongLine::Name));
    }
}

#[test]
fn counts_of_words() {
    for (name, fields) in [
        ("lv1", 0),
        ("bcr", 0),
        ("ecr", 0),
        ("cal", 0),
        ("sync", 0),
        ("wr-register", 2),
        ("rd-register", 1),
        ("wr-fifo", 1),
        ("rd-fifo", 1),
        ("wr-front-end", 1),
        ("rd-front-end", 1),
        ("wr-receiver", 1),
        ("en-data-take", 0),
        ("global-reset-mcc", 0),
        ("global-reset-fe", 1),
    ] {
        for count in 0..5 {
            let line = name.to_string() + &" 0".repeat(count);
            let wrong = read(&line) == Err(WrongLine::CountOfFields);
            assert_eq!(wrong, count != fields && count != fields + 1, "{line}");
            // Ahead of what the words are.
            let line = name.to_string() + &" ?".repeat(count);
            let reason = match count {
                0 if fields == 0 => continue,
                _ if wrong => WrongLine::CountOfFields,
                _ => WrongLine::Field,
            };
            assert_eq!(read(&line), Err(reason), "{line}");
        }
    }
}

#[test]
fn numbers_at_and_past_their_sizes() {
    let zeros = "0".repeat(300);
    for (ahead, most, more) in [
        ("wr-register ", "F 1", "10 1"),
        ("wr-register 1 ", "FFFF", "10000"),
        ("rd-register ", "f", "10"),
        ("wr-fifo ", "7FFFFFF", "8000000"),
        ("rd-fifo ", "0f", "1f"),
        ("global-reset-fe ", "F", "10"),
    ] {
        for (number, fit) in [(most, true), (more, false)] {
            for line in [
                format!("{ahead}{number}"),
                format!("{ahead}{zeros}{number}"),
                format!("{ahead}{number} 5"),
            ] {
                let expected = if fit { Ok(()) } else { Err(WrongLine::Field) };
                assert_eq!(read(&line).map(drop), expected, "{line}");
            }
        }
    }
    // Beyond 32 and 64 bits, where the low ones are small.
    for number in ["100000001", "10000000000000001", "F00000000000000000000001"] {
        for ahead in [
            "rd-register ",
            "wr-register 1 ",
            "wr-fifo ",
            "global-reset-fe ",
        ] {
            assert_eq!(read(&format!("{ahead}{number}")), Err(WrongLine::Field));
        }
    }
}

#[test]
fn words_that_are_no_numbers() {
    for word in [
        "x", "g", "-1", "+1", "0x1", "1.", "1,", "1_0", "\u{661}", ":", "1:1", "'1'",
    ] {
        for line in [
            format!("rd-register {word}"),
            format!("wr-register {word} 1"),
            format!("wr-register 1 {word}"),
            format!("wr-fifo {word}"),
            format!("global-reset-fe {word}"),
            format!("lv1 {word}"),
            format!("wr-fifo 1 {word}"),
            format!("wr-receiver :0 {word}"),
        ] {
            assert_eq!(read(&line), Err(WrongLine::Field), "{line}");
        }
    }
    // Zeros are decimal.
    for word in ["A", "f", "1A"] {
        assert_eq!(read(&format!("lv1 {word}")), Err(WrongLine::Field));
        assert!(read(&format!("wr-fifo {word} 1")).is_ok());
    }
}

#[test]
fn frames_that_are_no_numbers_of_their_size() {
    for word in [
        ":",
        "0:",
        "A5:",
        "A5:x",
        "A5:A",
        "x",
        "x:0",
        "A5x:8",
        "A5:8:8",
        "::0",
        "A5:-1",
        "A5:+8",
        ":1",
        "A:5",
        "A5:9",
        "A5:4294967304",
        "A5:18446744073709551624",
        "0x5:8",
        "A5:8.",
    ] {
        for name in ["wr-front-end", "rd-front-end", "wr-receiver"] {
            let line = format!("{name} {word}");
            assert_eq!(read(&line), Err(WrongLine::Field), "{line}");
        }
    }
}

/// Numbers of zeros beyond 64 bits are beyond every room.
#[test]
fn many_zeros() {
    for (word, zeros) in [
        ("18446744073709551614", u64::MAX - 1),
        ("18446744073709551615", u64::MAX),
        ("18446744073709551616", u64::MAX),
        ("36893488147419103233", u64::MAX),
        ("100000000000000000000000000000000000000000", u64::MAX),
        ("0000000000000000000000000000000000000000005", 5),
    ] {
        assert_eq!(read(&format!("lv1 {word}")), plain(0x01, zeros, 0, 0));
    }
}

/// Whatever the line holds, a comment too.
#[test]
fn lines_of_the_most_characters_and_one_more() {
    for line in ["lv1", "#", "", "x", "wr-front-end", "lv1 1 1 1 1"] {
        let most = format!("{line:<0$}", LINE_CHARACTERS);
        assert_eq!(most.len(), LINE_CHARACTERS);
        assert_eq!(read(&most), read(line), "{line}");
        assert_eq!(read(&(most + " ")), Err(WrongLine::Characters), "{line}");
    }
}

fn run(text: impl AsRef<[u8]>) -> String {
    let mut printed = Vec::new();
    let run = Program::Compose.list_all(text.as_ref(), &mut printed);
    run.expect("memory can be read and written");
    String::from_utf8(printed).expect("digits")
}

fn lines_of(stream: &Stream) -> String {
    String::from_utf8(stream.lines()).expect("digits")
}

#[test]
fn a_text_prints_its_stream() {
    assert_eq!(run(""), "");
    assert_eq!(run("\n# nothing\n \n"), "");
    assert_eq!(run("lv1"), "E8\n");
    assert_eq!(run("lv1\n"), "E8\n");
    assert_eq!(run("lv1 3\r\nlv1\r\n"), "1DE8\n");
    let text = "en-data-take\nlv1\n\nlv1 2 # later\nbcr\n";
    assert_eq!(run(text), "B5C074ED84\n");
    // Lines of 32 bytes, the last one shorter.
    for (zeros, lines) in [(251, 1), (252, 2), (507, 2), (508, 3), (1_000, 4)] {
        let printed = run(format!("lv1 {zeros}"));
        assert_eq!(printed, lines_of(&Stream::new().zeros(zeros).lv1()));
        assert_eq!(printed.lines().count(), lines);
        let longest = printed.lines().map(str::len).max();
        assert_eq!(longest, Some(64));
    }
}

#[test]
fn a_refused_text_prints_one_line() {
    for (text, printed) in [
        ("x", "!09 00000001\n"),
        ("lv1\nlv1\nx\n", "!09 00000003\n"),
        ("\n\n# x\nlv1 1 1\n", "!09 00000004\n"),
        ("bcr\nbcr\n", "!0A 00000002\n"),
        ("bcr\nbcr\nx\n", "!0A 00000002\n"),
        ("bcr\nwr-receiver 5\n", "!09 00000002\n"),
        ("lv1 8388604\n", "!0B 00000000\n"),
        ("lv1 8388604\nx", "!09 00000002\n"),
        ("lv1 99999999999999999999\n\nbcr\nbcr", "!0A 00000004\n"),
    ] {
        assert_eq!(run(text), printed, "{text:?}");
    }
    for lines in [9, 15, 16, 255, 65_535, 70_000] {
        let text = "\n".repeat(lines) + "x";
        assert_eq!(run(text), format!("!09 {:08X}\n", lines + 1));
    }
}

/// A mebibyte just fits, however it comes about.
#[test]
fn a_mebibyte_and_a_bit_more() {
    const BITS: usize = 8 * STREAM_BYTES;
    let refused = "!0B 00000000\n";
    let longest = run(format!("lv1 {}", BITS - 5));
    assert_eq!(longest, lines_of(&Stream::new().zeros(BITS - 5).lv1()));
    assert_eq!(run(format!("lv1 {}", BITS - 4)), refused);
    assert_eq!(
        run(format!("lv1 {}\nlv1", BITS - 10)),
        run(format!("lv1 {}\nlv1\n\n", BITS - 10))
    );
    assert_eq!(run(format!("lv1 {}\nlv1", BITS - 9)), refused);
    let many = "lv1\n".repeat(BITS / 5);
    assert_eq!(run(&many).len(), 2 * STREAM_BYTES + STREAM_BYTES / 32);
    assert_eq!(run(many + "lv1\n"), refused);
}

/// The composed text, read by the station.
#[test]
fn the_station_reads_it() {
    let text = "\
        en-data-take\n\
        lv1\n\
        lv1 2\n\
        bcr\n\
        wr-register 5 48 2  # CNT: nine data bits\n\
        wr-front-end 5C8:9\n";
    let mut listing = Vec::new();
    station(run(text).as_bytes(), &mut listing).unwrap();
    let expected = "\
        000000000010 28 01 00000000\n\
        000000000015 01 05 00000015\n\
        00000000001C 01 05 0000011C\n\
        000000000025 11 01 00000000\n\
        000000000048 20 01 00050048\n\
        0000000000A1 24 01 00000009\n\
        >5C80\n";
    assert_eq!(String::from_utf8(listing).unwrap(), expected);
}

/// However a fit list is written, the program composes what the call does.
#[test]
fn random_texts_are_their_orders() {
    for number in 0..1_500 {
        let mut random = Random::new(0xF2_0002_0000 + number);
        let count = random.below(20) as usize;
        let orders = random_orders(&mut random, Addresses::DEFAULT, count);
        let expected = lines_of(&stream_of(&orders));
        assert_eq!(run(plain_text(&orders)), expected, "text {number}");
        let varied = random_text(&orders, TextFlaw::Nothing, &mut random);
        assert_eq!(run(varied), expected, "text {number}");
        let Lent { orders, frames } = lent(&orders, &mut random);
        let mut output = vec![0; 60_000];
        let answer = compose(Plan::DEFAULT, &orders, &frames, &mut output);
        let digits = expected.bytes().filter(|&c| c != b'\n').count() as u64;
        let bytes = answer.map(|bits| bits.div_ceil(8));
        assert!(bytes == Ok(digits / 2) || digits > 120_000, "text {number}");
    }
}

/// Flawed texts are refused with every number, for every reason.
#[test]
fn flawed_texts_are_refused() {
    let mut counts = BTreeMap::new();
    let mut numbers = BTreeMap::new();
    for case in composed(1_500) {
        let printed = run(&case.input);
        let number = match printed.strip_prefix('!') {
            None => "",
            Some(refused) => &refused[..2],
        };
        *numbers.entry(number.to_string()).or_insert(0) += 1;
        *counts.entry(reason(&case)).or_insert(0) += 1;
    }
    assert!(
        numbers.keys().eq(["", "09", "0A", "0B"].iter()),
        "{numbers:?}"
    );
    assert!(numbers.values().all(|&count| count > 30), "{numbers:?}");
    assert_eq!(counts.len(), 8, "{counts:?}");
    assert!(counts.values().all(|&count| count > 15), "{counts:?}");
}

/// Why a text is refused, without its numbers.
fn reason(case: &Case) -> String {
    let mut system = Silent(&case.input[..], Vec::new());
    Program::Compose.start(&[], &mut system);
    let said = String::from_utf8(system.1).unwrap();
    said.chars().filter(|c| !c.is_ascii_digit()).collect()
}

/// A system with an input, of which only what is said is kept.
struct Silent<'a>(&'a [u8], Vec<u8>);

impl reader::System for Silent<'_> {
    fn open(&mut self, _: &[u8]) -> std::io::Result<()> {
        Ok(())
    }

    fn read(&mut self, block: &mut [u8]) -> std::io::Result<usize> {
        std::io::Read::read(&mut self.0, block)
    }

    fn write(&mut self, bytes: &[u8]) -> std::io::Result<usize> {
        Ok(bytes.len())
    }

    fn close_output(&mut self) -> std::io::Result<()> {
        Ok(())
    }

    fn say(&mut self, line: &[u8]) {
        self.1.extend(line);
    }
}

/// The cases that are written down are refused as their names say.
#[test]
fn the_cases_of_the_program() {
    let mut refused = 0;
    for case in fixed().into_iter().filter(Case::holds_orders) {
        let name = case.name.strip_prefix("compose/").expect("its folder");
        let printed = run(&case.input);
        let number = match name {
            _ if name.starts_with("wrong-") || name.contains("-then-wrong") => "!09 ",
            _ if name.starts_with("close-") || name.contains("-then-close") => "!0A ",
            _ if name.starts_with("first-1") => {
                ["!0A ", "!0B "][usize::from(name.starts_with("first-11"))]
            }
            _ if name.starts_with("first-") => "!09 ",
            _ if name.ends_with("-then-too-long") || name.ends_with("-1") => "!0B ",
            _ if name.ends_with("-more")
                || name.ends_with("-fewer")
                || name == "line-name-most" =>
            {
                "!09 "
            }
            _ => "",
        };
        assert!(printed.starts_with(number), "{name}: {printed:.40}");
        assert_eq!(printed.starts_with('!'), !number.is_empty(), "{name}");
        refused += u32::from(!number.is_empty());
    }
    assert!(refused > 100, "{refused}");
}

#[test]
fn reasons_in_words() {
    let line = |why| WrongOrders::Line { line: 3, why };
    let frame_bits = Unfit::FrameBits {
        asked: 144,
        given: 136,
    };
    let zeros = Unfit::Zeros { asked: 2, given: 1 };
    for (wrong, number, at, text) in [
        (
            line(WrongLine::Name),
            9,
            3,
            "line 3: no command has this name",
        ),
        (
            line(WrongLine::CountOfFields),
            9,
            3,
            "line 3: the command has another count of fields",
        ),
        (
            line(WrongLine::Field),
            9,
            3,
            "line 3: a field is no number of its size",
        ),
        (
            line(WrongLine::Unfit(frame_bits)),
            9,
            3,
            "line 3: CNT asks for 144 frame bits, and the line gives 136",
        ),
        (
            line(WrongLine::Characters),
            9,
            3,
            "line 3: the line is longer than 32768 characters",
        ),
        (
            line(WrongLine::Unfit(zeros)),
            10,
            3,
            "line 3: the timing table asks for 2 zeros ahead of this command, and the line gives 1",
        ),
        (
            WrongOrders::TooLong,
            11,
            0,
            "the stream is longer than 1048576 bytes",
        ),
    ] {
        assert_eq!(wrong.to_string(), text);
        assert_eq!((wrong.number(), wrong.line()), (number, at));
    }
}
