//! The programs as they are started: words, messages, exit status, and what
//! the system fails to do.

use reader::{Program, Status, System};
use std::collections::VecDeque;
use std::io::{self, ErrorKind};

/// The system's numbers of its errors.
const ENOENT: i32 = 2;
const EINTR: i32 = 4;
const EIO: i32 = 5;
const EBADF: i32 = 9;
const EISDIR: i32 = 21;
const ENOSPC: i32 = 28;
const EPIPE: i32 = 32;

/// A system whose answers a test gives.
#[derive(Default)]
struct Scripted {
    /// Whether a file can be opened.
    opening: Option<i32>,
    /// What each read gives; then the input ends.
    reads: VecDeque<Result<Vec<u8>, i32>>,
    /// How many bytes each write takes at most; then all.
    writes: VecDeque<Result<usize, i32>>,
    closing: Option<i32>,
    opened: Vec<Vec<u8>>,
    printed: Vec<u8>,
    said: Vec<u8>,
    closed: bool,
}

fn answer(error: Option<i32>) -> io::Result<()> {
    error.map_or(Ok(()), |number| Err(io::Error::from_raw_os_error(number)))
}

impl System for Scripted {
    fn open(&mut self, name: &[u8]) -> io::Result<()> {
        self.opened.push(name.to_vec());
        answer(self.opening)
    }

    fn read(&mut self, block: &mut [u8]) -> io::Result<usize> {
        let piece = self.reads.pop_front().unwrap_or(Ok(Vec::new()));
        let piece = piece.map_err(io::Error::from_raw_os_error)?;
        block[..piece.len()].copy_from_slice(&piece);
        Ok(piece.len())
    }

    fn write(&mut self, bytes: &[u8]) -> io::Result<usize> {
        assert!(!self.closed && !bytes.is_empty());
        let most = self.writes.pop_front().unwrap_or(Ok(usize::MAX));
        let length = most.map_err(io::Error::from_raw_os_error)?.min(bytes.len());
        self.printed.extend(&bytes[..length]);
        Ok(length)
    }

    fn close_output(&mut self) -> io::Result<()> {
        self.closed = true;
        answer(self.closing)
    }

    fn say(&mut self, line: &[u8]) {
        self.said.extend(line);
    }
}

impl Scripted {
    fn input(pieces: &[&[u8]]) -> Scripted {
        Scripted {
            reads: pieces.iter().map(|piece| Ok(piece.to_vec())).collect(),
            ..Scripted::default()
        }
    }

    /// Starts a program; answers its status and what it said.
    fn start(&mut self, program: Program, words: &[&str]) -> (Status, String) {
        let words: Vec<Vec<u8>> = words.iter().map(|word| word.as_bytes().to_vec()).collect();
        let status = program.start(&words, self);
        (status, String::from_utf8(self.said.clone()).unwrap())
    }

    fn printed(&self) -> &str {
        std::str::from_utf8(&self.printed).unwrap()
    }
}

fn said(status: Status, line: &str) -> (Status, String) {
    (status, line.to_string())
}

const FIRST: &str = "000000000010 28 01 00000000\n000000000015 01 05 00000015\n";

#[test]
fn help_and_version() {
    let help = "usage: model [FILE]\n\
        Hexadecimal lines from FILE, or from standard input if there is none or it is -; a line per record, then the state, to standard output.\n\
        Exit status: 0 the whole input, 1 a line was refused, 2 wrong words, 3 the system failed.\n";
    let does = "a line per record, then the state,";
    for (program, other) in [
        (Program::Station, "a line per record and one per frame"),
        (Program::Reading, "a line per record"),
        (Program::Model, does),
    ] {
        let mut system = Scripted::input(&[b"B5C074\n"]);
        let ended = system.start(program, &["--help"]);
        assert_eq!(ended, said(Status::Whole, ""));
        let expected = help.replace(does, other).replace("model", program.name());
        assert_eq!(system.printed(), expected);
        assert!(system.closed);

        let mut system = Scripted::default();
        let ended = system.start(program, &["--version"]);
        assert_eq!(ended, said(Status::Whole, ""));
        let version = concat!(" (Kernelstill) ", env!("CARGO_PKG_VERSION"), "\n");
        assert_eq!(system.printed(), format!("{}{version}", program.name()));
    }
}

/// Document 02, F-8.
#[test]
fn help_and_version_of_accept() {
    let help = "usage: accept [FILE]\n\
        Hexadecimal lines from FILE, or from standard input if there is none or it is -; a line for the first pattern at fault, if there is one, to standard output.\n\
        Exit status: 0 accepted, 1 refused, 2 wrong words, 3 the system failed.\n";
    let version = concat!("accept (Kernelstill) ", env!("CARGO_PKG_VERSION"), "\n");
    for (word, text) in [("--help", help), ("--version", version)] {
        let mut system = Scripted::input(&[b"A0\n"]);
        let ended = system.start(Program::Accept, &[word]);
        assert_eq!(ended, said(Status::Whole, ""));
        assert_eq!(system.printed(), text);
        assert!(system.closed);
    }
}

/// What `accept` says of patterns at fault and of refused lines, and that it
/// reads no further.
#[test]
fn what_accept_refuses() {
    let unknown = "the bits from here on begin none of LV1, BCR, ECR, CAL and SYNC";
    let cut = "the input ends inside the command that begins here";
    let close = "too few zeros lie ahead of the command that begins here";
    for (input, printed, text) in [
        (&b"E8\nA0\n"[..], "!0D 000000000008", ("bit 8", unknown)),
        (b"E8\nA0", "!0D 000000000008", ("bit 8", unknown)),
        (b"E807\n", "!0E 00000000000D", ("bit 13", cut)),
        (b"E807\n\n", "!0E 00000000000D", ("bit 13", cut)),
        (b"00B0AC20\n", "!0F 000000000012", ("bit 18", close)),
        (
            b"E807\n4\n",
            "!08 00000002",
            ("line 2", "the count of digits is 1, which is odd"),
        ),
        (
            b"07\n\r\n",
            "!07 00000002",
            ("line 2", "character 1 is a carriage return"),
        ),
        (b"A0\nx\n", "!0D 000000000000", ("bit 0", unknown)),
    ] {
        for (word, source) in [("-", "standard input"), ("a b.hex", "a b.hex")] {
            let mut system = Scripted::input(&[input]);
            let ended = system.start(Program::Accept, &[word]);
            let (place, text) = text;
            let line = format!("accept: {source}: {place}: {text}\n");
            assert_eq!(ended, said(Status::Refused, &line));
            assert_eq!(system.printed(), format!("{printed}\n"));
            assert!(system.closed);
        }
    }
    // Each way to be accepted.
    for input in [&b""[..], b"\n", b"00\n", b"E8\n", b"07\n40"] {
        let mut system = Scripted::input(&[input]);
        let ended = system.start(Program::Accept, &[]);
        assert_eq!(ended, said(Status::Whole, ""));
        assert_eq!((system.printed(), system.closed), ("", true));
    }
    // The lines after a fault are not read; a pattern under way waits.
    let mut system = Scripted::input(&[b"07\n", b"0", b"0\nE8\n", b"E8\n"]);
    let (status, _) = system.start(Program::Accept, &[]);
    assert_eq!((status, system.reads.len()), (Status::Refused, 1));
    assert_eq!(system.printed(), "!0D 000000000005\n");
}

/// A failed read is no end of the stream, so that nothing is cut.
#[test]
fn what_fails_while_accept_runs() {
    for input in [&b"E8\n"[..], b"E807\n", b"E8\nA"] {
        let mut system = Scripted::input(&[input]);
        system.reads.push_back(Err(EIO));
        let ended = system.start(Program::Accept, &["a.hex"]);
        let line = "accept: a.hex: Input/output error\n";
        assert_eq!(ended, said(Status::SystemFailed, line));
        assert_eq!(system.printed(), "");
    }
    for input in [&b"A0\n"[..], b"07", b"x"] {
        let mut system = Scripted::input(&[input]);
        system.writes = [Ok(3), Err(EINTR), Err(ENOSPC)].into();
        let ended = system.start(Program::Accept, &[]);
        let line = "accept: standard output: No space left on device\n";
        assert_eq!(ended, said(Status::SystemFailed, line));
        assert_eq!(system.printed.len(), 3);
    }
    for input in [&b"E8\n"[..], b"A0\n", b"07"] {
        let mut system = Scripted::input(&[input]);
        system.closing = Some(EIO);
        let ended = system.start(Program::Accept, &[]);
        let line = "accept: standard output: Input/output error\n";
        assert_eq!(ended, said(Status::SystemFailed, line));
    }
}

/// Document 02, F-2.
#[test]
fn help_and_version_of_compose() {
    let help = "usage: compose [FILE]\n\
        Orders, one a line, from FILE, or from standard input if there is none or it is -; hexadecimal lines of their stream to standard output.\n\
        Exit status: 0 the whole input, 1 a line was refused, 2 wrong words, 3 the system failed.\n";
    let version = concat!("compose (Kernelstill) ", env!("CARGO_PKG_VERSION"), "\n");
    for (word, text) in [("--help", help), ("--version", version)] {
        let mut system = Scripted::input(&[b"lv1\n"]);
        let ended = system.start(Program::Compose, &[word]);
        assert_eq!(ended, said(Status::Whole, ""));
        assert_eq!(system.printed(), text);
        assert!(system.closed);
    }
}

/// What `compose` says of refused lines and streams; which reason goes first.
#[test]
fn what_compose_refuses() {
    let long = "lv1".to_string() + &" ".repeat(32_766);
    let frame = "wr-register 5 90\nwr-front-end ".to_string() + &"A".repeat(34);
    for (input, printed, text) in [
        ("x", "!09 00000001", "line 1: no command has this name"),
        (
            "lv1\nlv1 1 1",
            "!09 00000002",
            "line 2: the command has another count of fields",
        ),
        (
            "\n\nlv1 z\n",
            "!09 00000003",
            "line 3: a field is no number of its size",
        ),
        (
            "wr-receiver :1",
            "!09 00000001",
            "line 1: a field is no number of its size",
        ),
        (
            &frame,
            "!09 00000002",
            "line 2: CNT asks for 18 frame bits, and the line gives 136",
        ),
        (
            "wr-receiver F",
            "!09 00000001",
            "line 1: CNT asks for 0 frame bits, and the line gives 4",
        ),
        (
            "bcr\nwr-receiver F:3",
            "!09 00000002",
            "line 2: CNT asks for 0 frame bits, and the line gives 3",
        ),
        (
            &long,
            "!09 00000001",
            "line 1: the line is longer than 32768 characters",
        ),
        (
            "bcr\nbcr 1\n",
            "!0A 00000002",
            "line 2: the timing table asks for 2 zeros ahead of this command, and the line gives 1",
        ),
        (
            "sync\n\nlv1",
            "!0A 00000003",
            "line 3: the timing table asks for 4 zeros ahead of this command, and the line gives 0",
        ),
        (
            "ecr\nwr-fifo 1\n",
            "!0A 00000002",
            "line 2: the timing table asks for 1 zeros ahead of this command, and the line gives 0",
        ),
        (
            "lv1 8388604",
            "!0B 00000000",
            "the stream is longer than 1048576 bytes",
        ),
    ] {
        for (word, source) in [("-", "standard input"), ("a b.txt", "a b.txt")] {
            let mut system = Scripted::input(&[input.as_bytes()]);
            let ended = system.start(Program::Compose, &[word]);
            let line = format!("compose: {source}: {text}\n");
            assert_eq!(ended, said(Status::Refused, &line));
            assert_eq!(system.printed(), format!("{printed}\n"));
            assert!(system.closed);
        }
    }
}

/// Nothing is printed ahead of the end, but for a line that is refused, after
/// which nothing is read. A text too long is known at the end only.
#[test]
fn when_compose_prints() {
    let mut system = Scripted::input(&[b"lv1\nl", b"v1", b"\n", b"bcr"]);
    let ended = system.start(Program::Compose, &[]);
    assert_eq!(ended, said(Status::Whole, ""));
    assert_eq!(system.printed(), "EF6C20\n");
    let mut system = Scripted::input(&[b"lv1\nlv", b"2\n", b"lv1\n"]);
    let (status, _) = system.start(Program::Compose, &[]);
    assert_eq!((status, system.reads.len()), (Status::Refused, 1));
    assert_eq!(system.printed(), "!09 00000002\n");
    let mut system = Scripted::input(&[b"lv1 9999999\n", b"lv1\n", b"lv1\n"]);
    let (status, _) = system.start(Program::Compose, &[]);
    assert_eq!((status, system.reads.len()), (Status::Refused, 0));
    assert_eq!(system.printed(), "!0B 00000000\n");
}

/// A failed read is no end of the text, so that nothing is composed.
#[test]
fn what_fails_while_compose_runs() {
    for input in [&b""[..], b"lv1\n", b"lv1\nx", b"lv1 9999999\n"] {
        let mut system = Scripted::input(&[input]);
        // A read of no bytes is the end.
        system.reads.retain(|read| *read != Ok(Vec::new()));
        system.reads.push_back(Err(EINTR));
        system.reads.push_back(Err(EIO));
        let ended = system.start(Program::Compose, &["a.txt"]);
        let line = "compose: a.txt: Input/output error\n";
        assert_eq!(ended, said(Status::SystemFailed, line));
        assert_eq!(system.printed(), "");
    }
    for input in [&b"lv1 20"[..], b"x", b"bcr\nbcr", b"lv1 9999999"] {
        let mut system = Scripted::input(&[input]);
        system.writes = [Ok(3), Err(EINTR), Err(ENOSPC)].into();
        let ended = system.start(Program::Compose, &[]);
        let line = "compose: standard output: No space left on device\n";
        assert_eq!(ended, said(Status::SystemFailed, line));
        assert_eq!(system.printed.len(), 3);
    }
    for input in [&b""[..], b"lv1\n", b"x"] {
        let mut system = Scripted::input(&[input]);
        system.closing = Some(EIO);
        let ended = system.start(Program::Compose, &[]);
        let line = "compose: standard output: Input/output error\n";
        assert_eq!(ended, said(Status::SystemFailed, line));
    }
}

/// Document 02, F-12.
#[test]
fn help_and_version_of_reply() {
    let help = "usage: reply COUNT [FILE]\n\
        Hexadecimal lines from FILE, or from standard input if there is none or it is -; whether a reply of COUNT bits, 1 to 8191, is whole, and a line of its bytes, to standard output.\n\
        Exit status: 0 whole, 1 not whole or a line was refused, 2 wrong words, 3 the system failed.\n";
    let version = concat!("reply (Kernelstill) ", env!("CARGO_PKG_VERSION"), "\n");
    for (word, text) in [("--help", help), ("--version", version)] {
        let mut system = Scripted::input(&[b"1DFF\n"]);
        let ended = system.start(Program::Reply, &[word]);
        assert_eq!(ended, said(Status::Whole, ""));
        assert_eq!(system.printed(), text);
        assert_eq!((system.closed, system.reads.len()), (true, 1));
        // Beside another word neither is anything.
        for words in [["8", word], [word, "8"], [word, "-"]] {
            let ended = Scripted::default().start(Program::Reply, &words);
            let usage = "usage: reply COUNT [FILE]\n";
            assert_eq!(ended, said(Status::WrongWords, usage), "{words:?}");
        }
    }
}

/// Starts `reply` on an input that holds 255 bits; answers what it printed, or
/// what it said of wrong words.
fn reply_by(words: &[&str]) -> Result<String, String> {
    let data = "FF".repeat(255);
    let lines: String = (0..data.len())
        .step_by(64)
        .map(|from| data[from..data.len().min(from + 64)].to_string() + "\n")
        .collect();
    let input = "1D\n".to_string() + &lines;
    let mut system = Scripted::input(&[input.as_bytes()]);
    let (status, said) = system.start(Program::Reply, words);
    match status {
        Status::WrongWords => {
            assert_eq!((system.printed(), system.reads.len()), ("", 1));
            assert_eq!((system.opened.len(), system.closed), (0, false));
            Err(said)
        }
        Status::Whole | Status::Refused => Ok(system.printed().to_string()),
        Status::SystemFailed => panic!("{words:?}: {said}"),
    }
}

/// The first line that `reply` prints, by the count that its word says.
fn first_line_for(count: usize) -> String {
    match count {
        0..=255 => format!("whole {count:04X}"),
        _ => "cut short 00FF".to_string(),
    }
}

#[test]
fn the_count_of_reply() {
    let usage = Err("usage: reply COUNT [FILE]\n".to_string());
    let first_line = |word: &str| {
        let printed = reply_by(&[word])?;
        Ok(printed.lines().next().unwrap().to_string())
    };
    // Every number in as few digits as it has, and in up to four and in five.
    for count in 0..=10_100 {
        let fits = (1..=8_191).contains(&count);
        for digits in 1..=5 {
            let word = format!("{count:0digits$}");
            let expected = match fits && word.len() <= 4 {
                true => Ok(first_line_for(count)),
                false => usage.clone(),
            };
            assert_eq!(first_line(&word), expected, "{word}");
        }
    }
    // Every character alone, and at each place.
    for byte in 0..=127 {
        let one = char::from(byte).to_string();
        let expected = match byte {
            b'1'..=b'9' => Ok(first_line_for(usize::from(byte - b'0'))),
            _ => usage.clone(),
        };
        assert_eq!(first_line(&one), expected, "{byte}");
        for words in [format!("8{one}"), format!("{one}8"), format!("81{one}1")] {
            assert_eq!(
                first_line(&words).is_ok(),
                byte.is_ascii_digit(),
                "{words:?}"
            );
        }
    }
    for word in [
        "",
        " ",
        "-",
        "+1",
        "-1",
        "0x8",
        "1e3",
        "8.",
        "8,0",
        "8 ",
        " 8",
        "08191",
        "00001",
        "18446744073709551617",
        "4294967304",
        "٣",
        "８",
    ] {
        assert_eq!(first_line(word), usage, "{word:?}");
    }
    let long = "8".repeat(5_000);
    assert_eq!(first_line(&long), usage);
}

/// The count goes ahead of the file, whose word is as in the other programs.
#[test]
fn the_words_of_reply() {
    let usage = || said(Status::WrongWords, "usage: reply COUNT [FILE]\n");
    let long = "x".repeat(4_096);
    for words in [
        &[][..],
        &["a.hex"],
        &["a.hex", "8"],
        &["8", "--"],
        &["8", "-x"],
        &["8", "-8"],
        &["--", "8"],
        &["-", "8"],
        &["8", "--", "a.hex"],
        &["8", "a.hex", "b.hex"],
        &["8", "-", "-"],
        &["8", "8", "8"],
        &["0", "a.hex"],
        &["", "a.hex"],
        &["8192", "-"],
        // The count is looked at first.
        &[&long],
        &["0", &long],
        &[&long, &long],
        &["8", &long, "a.hex"],
    ] {
        let mut system = Scripted::input(&[b"1DFFFF\n"]);
        assert_eq!(system.start(Program::Reply, words), usage(), "{words:?}");
        assert_eq!((system.printed(), system.reads.len()), ("", 1));
        assert_eq!((system.opened.len(), system.closed), (0, false));
    }
    for (words, opened) in [
        (&["2"][..], &[][..]),
        (&["2", "-"], &[]),
        (&["0002", "a.hex"], &["a.hex"]),
        (&["2", "2"], &["2"]),
        (&["2", ""], &[""]),
        (&["2", "a -"], &["a -"]),
    ] {
        let mut system = Scripted::input(&[b"1DFF00\n"]);
        let ended = system.start(Program::Reply, words);
        assert_eq!(ended, said(Status::Whole, ""));
        assert_eq!(system.printed(), "whole 0002\n>80\n");
        let opened: Vec<Vec<u8>> = opened.iter().map(|name| name.as_bytes().to_vec()).collect();
        assert_eq!(system.opened, opened);
    }
    let mut system = Scripted::default();
    let ended = system.start(Program::Reply, &["8", &long]);
    let line = "reply: argument: File name too long\n";
    assert_eq!(ended, said(Status::SystemFailed, line));
    assert_eq!(system.opened.len(), 0);
    let ended = system.start(Program::Reply, &["8", &long[1..]]);
    assert_eq!(ended.0, Status::Refused);
    assert_eq!(system.opened, [&long.as_bytes()[1..]]);
}

/// What `reply` prints and says where there is no whole reply, and of lines
/// that are refused, after which there is no answer.
#[test]
fn what_reply_refuses() {
    for (count, input, printed, text) in [
        ("8", &b""[..], "no header\n", "no header 11101"),
        ("8", b"\n\n", "no header\n", "no header 11101"),
        ("1", b"1CFFFF\n", "no header\n", "no header 11101"),
        ("1", b"0E", "no header\n", "no header 11101"),
        ("8", b"1D", "cut short 0000\n", "cut short: 0 of 8 bits"),
        (
            "8",
            b"1DFF00\nFF\n",
            "cut short 0003\n>A0\n",
            "cut short: 3 of 8 bits",
        ),
        (
            "8191",
            b"1DFF00FF00FF00FF00\nFF",
            "cut short 0009\n>AA80\n",
            "cut short: 9 of 8191 bits",
        ),
        (
            "0010",
            b"1D\n\n0F\nF0\n",
            "cut short 0002\n>40\n",
            "cut short: 2 of 10 bits",
        ),
        (
            "1",
            b"1D\nF\n",
            "!08 00000002\n",
            "line 2: the count of digits is 1, which is odd",
        ),
        (
            "8",
            b"1DFFFF\nff\n",
            "!07 00000002\n",
            "line 2: character 1 is a lower-case letter",
        ),
        (
            "8",
            b"1DFFFF\nFFFFFFFFFFFF\r\n",
            "!07 00000002\n",
            "line 2: character 13 is a carriage return",
        ),
        (
            "8",
            b"\n\n0\n",
            "!08 00000003\n",
            "line 3: the count of digits is 1, which is odd",
        ),
    ] {
        for (word, source) in [("-", "standard input"), ("a b.hex", "a b.hex")] {
            let mut system = Scripted::input(&[input]);
            let ended = system.start(Program::Reply, &[count, word]);
            let line = format!("reply: {source}: {text}\n");
            assert_eq!(ended, said(Status::Refused, &line));
            assert_eq!(system.printed(), printed);
            assert!(system.closed);
        }
    }
}

/// The line with which the reply is whole ends the run, once it has ended
/// itself; nothing behind it is looked at.
#[test]
fn when_reply_ends() {
    let whole = said(Status::Whole, "");
    for input in [
        &b"1DFF00\n"[..],
        b"1DFF00",
        b"1DFF00FF\n",
        b"1D\nFF\n\n00\n",
        b"1DFF00\nx\n",
        b"1DFF00\n0",
        b"1DFF00\n\r",
        b"1DFF00\nE8\n1DFFFF\n",
    ] {
        for reads in [vec![input], input.chunks(1).collect()] {
            let mut system = Scripted::input(&reads);
            assert_eq!(system.start(Program::Reply, &["2"]), whole);
            assert_eq!(system.printed(), "whole 0002\n>80\n");
            assert!(system.closed);
        }
    }
    let mut system = Scripted::input(&[b"1DFF\n0", b"0", b"\n0", b"0\n", b"x\n"]);
    assert_eq!(system.start(Program::Reply, &["2"]), whole);
    assert_eq!(system.reads.len(), 2);
    assert_eq!(system.printed(), "whole 0002\n>80\n");
    // A line has ended first, even if the bits have been there before.
    let mut system = Scripted::input(&[b"1DFF00", b"FFx", b"\n", b"00\n"]);
    let line = "reply: standard input: line 1: character 9 is a lower-case letter\n";
    let ended = system.start(Program::Reply, &["2"]);
    assert_eq!(ended, said(Status::Refused, line));
    assert_eq!(system.printed(), "!07 00000001\n");
    assert_eq!(system.reads.len(), 1);
    // A read that would fail is not made.
    let mut system = Scripted::input(&[b"1DFF00\n"]);
    system.reads.push_back(Err(EIO));
    assert_eq!(system.start(Program::Reply, &["2"]), whole);
    // Nothing is known ahead of the end, but for a line that is refused.
    let mut system = Scripted::input(&[b"1DFF\n", b"x\n", b"00\n"]);
    let (status, _) = system.start(Program::Reply, &["2"]);
    assert_eq!((status, system.reads.len()), (Status::Refused, 1));
    assert_eq!(system.printed(), "!07 00000002\n");
}

/// A failed read is no end of the stream, so that nothing is cut short.
#[test]
fn what_fails_while_reply_runs() {
    for input in [&b"00\n"[..], b"1D\n", b"1DFF\n", b"1DFF00", b"1D\nx"] {
        let mut system = Scripted::input(&[input]);
        system.reads.push_back(Err(EINTR));
        system.reads.push_back(Err(EIO));
        let ended = system.start(Program::Reply, &["2", "a.hex"]);
        let line = "reply: a.hex: Input/output error\n";
        assert_eq!(ended, said(Status::SystemFailed, line));
        assert_eq!(system.printed(), "");
    }
    for input in [&b""[..], b"1D", b"1DFF00\n", b"1DFF\n", b"x"] {
        let mut system = Scripted::input(&[input]);
        system.writes = [Ok(3), Err(EINTR), Err(ENOSPC)].into();
        let ended = system.start(Program::Reply, &["2"]);
        let line = "reply: standard output: No space left on device\n";
        assert_eq!(ended, said(Status::SystemFailed, line));
        assert_eq!(system.printed.len(), 3);
    }
    for input in [&b""[..], b"1D", b"1DFF00\n", b"x"] {
        let mut system = Scripted::input(&[input]);
        system.closing = Some(EIO);
        let ended = system.start(Program::Reply, &["2"]);
        let line = "reply: standard output: Input/output error\n";
        assert_eq!(ended, said(Status::SystemFailed, line));
    }
    let mut system = Scripted::default();
    for character in b"1DFF\n00\nx" {
        system.reads.extend([Err(EINTR), Err(EINTR)]);
        system.reads.push_back(Ok(vec![*character]));
    }
    system.writes = (0..90)
        .map(|n| if n % 3 < 2 { Err(EINTR) } else { Ok(1) })
        .collect();
    let ended = system.start(Program::Reply, &["2"]);
    assert_eq!(ended, said(Status::Whole, ""));
    assert_eq!(system.printed(), "whole 0002\n>80\n");
}

/// The words that a program says it is run with, by which it lists an input.
#[test]
fn words_ahead_of_the_file() {
    let input = [&b"B5C074\nE8\n"[..], &b"FF00".repeat(9)].concat();
    for program in Program::ALL {
        let mut system = Scripted::input(&[&input]);
        let words = program.words().iter().map(|word| word.to_vec());
        let words: Vec<Vec<u8>> = words.collect();
        program.start(&words, &mut system);
        let mut listed = Vec::new();
        program.list_all(&input[..], &mut listed).unwrap();
        assert!(!listed.is_empty());
        assert_eq!(system.printed, listed);
    }
}

#[test]
fn wrong_words() {
    for words in [
        &["-x"][..],
        &["--"],
        &["--help "],
        &["--Help"],
        &["--versio"],
        &["-h"],
        &["--help", "--help"],
        &["a", "b"],
        &["-", "-"],
        &["", ""],
        &["--help", "a", "b"],
    ] {
        for program in Program::ALL {
            let mut system = Scripted::input(&[b"B5C074\n"]);
            let count = match program {
                Program::Reply => "COUNT ",
                _ => "",
            };
            let usage = format!("usage: {} {count}[FILE]\n", program.name());
            let ended = system.start(program, words);
            assert_eq!(ended, said(Status::WrongWords, &usage), "{words:?}");
            assert_eq!((system.printed(), system.reads.len()), ("", 1));
            assert_eq!(system.opened, [b""; 0]);
        }
    }
}

#[test]
fn the_input_by_its_word() {
    for (words, opened) in [
        (&[][..], &[][..]),
        (&["-"], &[]),
        (&["a.hex"], &["a.hex"]),
        (&[""], &[""]),
        (&["a -"], &["a -"]),
        (&["--help/../a".trim_start_matches('-')], &["help/../a"]),
    ] {
        let mut system = Scripted::input(&[b"B5C074\n"]);
        let ended = system.start(Program::Station, words);
        assert_eq!(ended, said(Status::Whole, ""));
        assert_eq!(system.printed(), FIRST);
        let opened: Vec<Vec<u8>> = opened.iter().map(|name| name.as_bytes().to_vec()).collect();
        assert_eq!(system.opened, opened);
    }
}

#[test]
fn a_long_word() {
    let longest = "x".repeat(4_095);
    let mut system = Scripted::default();
    let ended = system.start(Program::Reading, &[&longest]);
    assert_eq!(ended, said(Status::Whole, ""));
    assert_eq!(system.opened, [longest.as_bytes()]);
    for word in ["x".repeat(4_096), "-".repeat(5_000)] {
        let mut system = Scripted::default();
        let ended = system.start(Program::Reading, &[&word]);
        let line = "reading: argument: File name too long\n";
        assert_eq!(ended, said(Status::SystemFailed, line));
        assert_eq!(system.opened, [b""; 0]);
        // Two words are wrong, whatever they are.
        let ended = Scripted::default().start(Program::Reading, &[&word, "-"]);
        assert_eq!(ended, said(Status::WrongWords, "usage: reading [FILE]\n"));
    }
}

#[test]
fn a_file_that_cannot_be_opened() {
    for program in Program::ALL {
        let mut system = Scripted {
            opening: Some(ENOENT),
            ..Scripted::default()
        };
        let words: &[&str] = match program {
            Program::Reply => &["8", "no such.hex"],
            _ => &["no such.hex"],
        };
        let (status, line) = system.start(program, words);
        let text = "no such.hex: No such file or directory";
        assert_eq!(line, format!("{}: {text}\n", program.name()));
        assert_eq!((status, system.printed()), (Status::SystemFailed, ""));
    }
}

/// The line under way is not ended, and no state is printed.
#[test]
fn a_read_that_fails() {
    for program in Program::LISTING {
        for (words, error, text) in [
            (&[][..], EBADF, "standard input: Bad file descriptor"),
            (&["-"], EIO, "standard input: Input/output error"),
            (&["folder"], EISDIR, "folder: Is a directory"),
        ] {
            let mut system = Scripted::input(&[b"B5C0", b"74\nE0B08"]);
            system.reads.push_back(Err(error));
            let line = format!("{}: {text}\n", program.name());
            let ended = system.start(program, words);
            assert_eq!(ended, said(Status::SystemFailed, &line));
            assert_eq!(system.printed(), FIRST);
        }
    }
}

#[test]
fn a_write_that_fails() {
    for (error, line) in [
        (
            ENOSPC,
            "station: standard output: No space left on device\n",
        ),
        (EBADF, "station: standard output: Bad file descriptor\n"),
        // A reader that has gone away.
        (EPIPE, ""),
    ] {
        for input in [&b"B5C074\n"[..], b"B5C074\nx\n"] {
            let mut system = Scripted::input(&[input, b"E0B080\n"]);
            system.writes = [Ok(3), Ok(7), Err(error)].into();
            let ended = system.start(Program::Station, &[]);
            assert_eq!(ended, said(Status::SystemFailed, line));
            assert_eq!(system.printed(), &FIRST[..10]);
            assert_eq!(system.reads.len(), 1);
        }
        let mut system = Scripted::default();
        system.writes.push_back(Err(error));
        let ended = system.start(Program::Station, &["--help"]);
        assert_eq!(ended, said(Status::SystemFailed, line));
    }
}

#[test]
fn a_closing_that_fails() {
    let full = "model: standard output: No space left on device\n";
    for (words, input) in [
        (&[][..], &b"B5C074\n"[..]),
        (&[], b"x"),
        (&["--help"], b""),
        (&["--version"], b""),
    ] {
        let mut system = Scripted::input(&[input]);
        system.closing = Some(ENOSPC);
        let ended = system.start(Program::Model, words);
        assert_eq!(ended, said(Status::SystemFailed, full));
    }
    for no_failure in [EBADF, EINTR] {
        let mut system = Scripted::input(&[b"00\n"]);
        system.closing = Some(no_failure);
        let ended = system.start(Program::Reading, &[]);
        assert_eq!(ended, said(Status::Whole, ""));
        assert!(system.closed);
    }
}

/// A write that takes nothing would take nothing for ever.
#[test]
fn a_write_of_nothing() {
    let mut system = Scripted::input(&[b"B5C074\n", b"E0B080\n"]);
    system.writes = [Ok(3), Ok(0)].into();
    let (status, line) = system.start(Program::Station, &[]);
    assert_eq!(status, Status::SystemFailed);
    assert!(line.starts_with("station: standard output: ") && line.ends_with('\n'));
    assert_eq!(system.printed(), &FIRST[..3]);
    assert_eq!(system.reads.len(), 1);
}

/// Interrupted calls are made again, and short writes continued.
#[test]
fn interrupted_and_short_calls() {
    let mut system = Scripted::default();
    for character in b"B5C074\nE0B08\n" {
        system.reads.extend([Err(EINTR), Err(EINTR), Err(EINTR)]);
        system.reads.push_back(Ok(vec![*character]));
    }
    system.writes = (0..600)
        .map(|n| if n % 4 < 3 { Err(EINTR) } else { Ok(1) })
        .collect();
    let line = "station: standard input: line 2: the count of digits is 5, which is odd\n";
    let ended = system.start(Program::Station, &[]);
    assert_eq!(ended, said(Status::Refused, line));
    assert_eq!(system.printed(), format!("{FIRST}!08 00000002\n"));
}

/// Lines that are refused, and what is said of each.
const REFUSED: [(&[u8], &str); 20] = [
    (b"\r", "character 1 is a carriage return"),
    (b"B5C074\r", "character 7 is a carriage return"),
    (b"B5 C074", "character 3 is a space"),
    (b"B5C0\t74", "character 5 is a tab"),
    (b"b5c074", "character 1 is a lower-case letter"),
    (b"B5C07z", "character 6 is a lower-case letter"),
    (b"0x", "character 2 is a lower-case letter"),
    (b"0G", "character 2 is byte 71, none of 0-9 and A-F"),
    (b"Z", "character 1 is byte 90, none of 0-9 and A-F"),
    (b"00/", "character 3 is byte 47, none of 0-9 and A-F"),
    (b"00:", "character 3 is byte 58, none of 0-9 and A-F"),
    (b"00@", "character 3 is byte 64, none of 0-9 and A-F"),
    (b"`", "character 1 is byte 96, none of 0-9 and A-F"),
    (b"{", "character 1 is byte 123, none of 0-9 and A-F"),
    (b"B5\0", "character 3 is byte 0, none of 0-9 and A-F"),
    (b"\x80", "character 1 is byte 128, none of 0-9 and A-F"),
    (b"AB\xFFxx", "character 3 is byte 255, none of 0-9 and A-F"),
    (b"\x0B", "character 1 is byte 11, none of 0-9 and A-F"),
    // The first one counts, and 7 wins over 8.
    (b"0 \r\tg", "character 2 is a space"),
    (b"B", "the count of digits is 1, which is odd"),
];

/// The same, and lines of many digits.
fn refused() -> Vec<(Vec<u8>, String)> {
    let short = REFUSED.map(|(line, why)| (line.to_vec(), why.to_string()));
    let mut cases = short.to_vec();
    for digits in [3, 63, 65, 66, 67, 4_097, 65_535, 65_536, 65_537, 200_001] {
        let why = if digits > 64 {
            "above 64"
        } else {
            "which is odd"
        };
        let line = vec![b'7'; digits];
        cases.push((
            line.clone(),
            format!("the count of digits is {digits}, {why}"),
        ));
        let place = digits + 1;
        let wrong = [&line[..], b"\r7"].concat();
        cases.push((wrong, format!("character {place} is a carriage return")));
    }
    cases
}

#[test]
fn refused_lines() {
    for (line, why) in refused() {
        for (ahead, name) in [(0, "-"), (9, "a.hex"), (69_999, "-")] {
            let input = [&vec![b'\n'; ahead][..], &line, b"\n"].concat();
            let pieces: Vec<&[u8]> = input.chunks(5_000).collect();
            let mut system = Scripted::input(&pieces);
            let number = ahead + 1;
            let input = if name == "-" { "standard input" } else { name };
            let expected = format!("model: {input}: line {number}: {why}\n");
            let ended = system.start(Program::Model, &[name]);
            assert_eq!(ended, said(Status::Refused, &expected));
            // The output comes whole all the same.
            assert!(system
                .printed()
                .contains(&format!(" {number:08X}\nregister 0 ")));
        }
    }
}

/// The clock's end cannot be reached by an input; its words can be had.
#[test]
fn the_end_of_the_clock() {
    let refusal = reader::Refusal {
        line: 4_294_967_296,
        why: reader::Why::Clock,
    };
    let text = "line 4294967296: its bits pass the last clock cycle";
    assert_eq!(
        (refusal.to_string(), refusal.why.number()),
        (text.to_string(), 6)
    );
}

/// Its own name for an error, without the number that Rust adds to it.
#[test]
fn texts_of_errors() {
    let text = |error: io::Error| reader::message::text(&error);
    assert_eq!(text(io::Error::from_raw_os_error(EISDIR)), "Is a directory");
    let made = ErrorKind::WriteZero.into();
    assert!(!text(made).is_empty());
}
