//! The programs' lines: how input arrives, fit and refused lines, output.

use cases::Stream;
use reader::listing::{push_frame, push_record, push_refused};
use reader::{model, reading, station, Record};
use std::cell::RefCell;
use std::io::{self, BufRead, BufReader, ErrorKind, Read, Write};
use std::process::{Command, Stdio};
use std::sync::mpsc::channel;
use std::thread::spawn;
use std::time::Duration;

/// Input that arrives in pieces, each read giving at most one of them.
struct Pieces(Vec<Vec<u8>>);

impl Pieces {
    fn cut(input: &[u8], cuts: &[usize]) -> Pieces {
        let mut pieces = Vec::new();
        let mut from = 0;
        for &cut in cuts.iter().chain([&input.len()]) {
            pieces.push(input[from..cut].to_vec());
            from = cut;
        }
        // An empty piece would look like the end of the input.
        pieces.retain(|piece| !piece.is_empty());
        pieces.reverse();
        Pieces(pieces)
    }
}

impl Read for Pieces {
    fn read(&mut self, buffer: &mut [u8]) -> io::Result<usize> {
        let Some(mut piece) = self.0.pop() else {
            return Ok(0);
        };
        let length = piece.len().min(buffer.len());
        buffer[..length].copy_from_slice(&piece[..length]);
        if length < piece.len() {
            self.0.push(piece.split_off(length));
        }
        Ok(length)
    }
}

fn run_station(input: &[u8]) -> String {
    let mut out = Vec::new();
    station(input, &mut out).unwrap();
    String::from_utf8(out).unwrap()
}

fn run_reading(input: &[u8]) -> String {
    let mut out = Vec::new();
    reading(input, &mut out).unwrap();
    String::from_utf8(out).unwrap()
}

fn run_model(input: &[u8]) -> String {
    let mut out = Vec::new();
    model(input, &mut out).unwrap();
    String::from_utf8(out).unwrap()
}

const LISTING: &str = "\
    000000000010 28 01 00000000\n\
    000000000015 01 05 00000015\n\
    00000000001C 01 07 0005011C\n\
    000000000028 11 01 00000000\n";

/// What the listing's first input line prints.
const FIRST: &str = "\
    000000000010 28 01 00000000\n\
    000000000015 01 05 00000015\n";

/// Input, what the station prints.
fn line_cases() -> Vec<(Vec<u8>, String)> {
    let case = |input: &[u8], lines: &str| (input.to_vec(), lines.to_string());
    let mut cases = vec![
        case(b"", ""),
        case(b"\n", ""),
        case(b"\n\n\n", ""),
        case(b"B5C074\nE0B080\n", LISTING),
        case(b"B5C074\nE0B080", LISTING),
        case(b"B5C074E0B080\n", LISTING),
        case(b"\nB5\n\nC0\n74E0\nB080\n\n", LISTING),
        case(b"B5C074\nE0B080\nA\n", &format!("{LISTING}!08 00000003\n")),
        case(b"B5C074\nE0B080\nA", &format!("{LISTING}!08 00000003\n")),
        case(b"B5C074\nE0B080\n\nG", &format!("{LISTING}!07 00000004\n")),
        case(b"B5C074\nE0B080\r\n", &format!("{FIRST}!07 00000002\n")),
        case(b"B5C074\r\nE0B080\r\n", "!07 00000001\n"),
        case(b"B5C074\n\rE0B080\n", &format!("{FIRST}!07 00000002\n")),
        case(b"b5c074\n", "!07 00000001\n"),
        case(b"B5c074\n", "!07 00000001\n"),
        case(b" B5C074\n", "!07 00000001\n"),
        case(b"B5C074 \n", "!07 00000001\n"),
        case(b"B5 C074\n", "!07 00000001\n"),
        case(b"B5C074\tE0\n", "!07 00000001\n"),
        case(b"B5C0\x00074\n", "!07 00000001\n"),
        case(b"\x00", "!07 00000001\n"),
        case(b"\xFF\xFE\n", "!07 00000001\n"),
        case(b"B5\x80\n", "!07 00000001\n"),
        case(b"B5C\n", "!08 00000001\n"),
        case(b"B5c\n", "!07 00000001\n"),
        case(b"B5C0740\nE0B080\n", "!08 00000001\n"),
        // Neither a record nor a line after the refused one.
        case(b"B5C074\nX\nE0B080\nX\n", &format!("{FIRST}!07 00000002\n")),
        // No byte of a refused line is taken.
        case(b"B5C074E0B080x\n", "!07 00000001\n"),
        case(b"B5C074E0B080B\n", "!08 00000001\n"),
    ];
    for (digits, end, number) in [
        (64, "", ""),
        (65, "", "!08 00000001\n"),
        (66, "", "!08 00000001\n"),
        (64, "x", "!07 00000001\n"),
        (66, "x", "!07 00000001\n"),
        (200, "x", "!07 00000001\n"),
        (201, "", "!08 00000001\n"),
    ] {
        let line = format!("{}{end}\n", "0".repeat(digits));
        cases.push(case(line.as_bytes(), number));
    }
    cases
}

#[test]
fn lines_in_one_piece() {
    for (input, expected) in line_cases() {
        assert_eq!(run_station(&input), expected, "{input:?}");
        assert_eq!(run_reading(&input), expected, "{input:?}");
        assert!(run_model(&input).starts_with(&format!("{expected}register 0 ")));
    }
}

#[test]
fn lines_split_at_every_place() {
    for (input, expected) in line_cases() {
        for cut in 0..=input.len() {
            let mut out = Vec::new();
            station(Pieces::cut(&input, &[cut]), &mut out).unwrap();
            assert_eq!(out, expected.as_bytes(), "{input:?} split at {cut}");
        }
        let every: Vec<usize> = (0..input.len()).collect();
        let mut out = Vec::new();
        station(Pieces::cut(&input, &every), &mut out).unwrap();
        assert_eq!(out, expected.as_bytes(), "{input:?}, one byte at a time");
        let mut out = Vec::new();
        reading(Pieces::cut(&input, &every), &mut out).unwrap();
        assert_eq!(out, expected.as_bytes(), "{input:?}, one byte at a time");
        let mut out = Vec::new();
        model(Pieces::cut(&input, &every), &mut out).unwrap();
        assert_eq!(out, run_model(&input).as_bytes());
    }
}

#[test]
fn frames_are_lines_of_their_own() {
    // CNT 9: one data bit, eight control bits; then an empty WrReceiver.
    let stream = Stream::new()
        .wr_register(5, 9)
        .front_end(4, &[true, false, true, false, true, true, true, true, true])
        .wr_register(5, 0)
        .wr_receiver(&[])
        .front_end(5, &[])
        .wr_register(5, 2)
        .wr_receiver(&[true; 16]);
    let records = [
        "000000000020 20 01 00050009\n",
        "000000000079 24 01 00080001\n",
        ">AF80\n",
        "00000000009A 20 01 00050000\n",
        "0000000000AB 26 01 00000000\n",
        "0000000000BC 25 01 00000000\n",
        "0000000000DD 20 01 00050002\n",
        "0000000000FE 26 01 00000010\n",
        ">FFFF\n",
    ];
    assert_eq!(run_station(&stream.lines()), records.concat());
    let only: Vec<&str> = records
        .iter()
        .copied()
        .filter(|line| !line.starts_with('>'))
        .collect();
    assert_eq!(run_reading(&stream.lines()), only.concat());
}

#[test]
fn the_model() {
    let stream = Stream::new()
        .wr_register(0, 0xFFFF)
        .wr_register(2, 0x8001)
        .wr_register(6, 0x00AB)
        .wr_fifo(0x0123_4567)
        .wr_fifo(5)
        .rd_fifo(1)
        .pattern("11100")
        .en_data_take()
        .bcr()
        .lv1();
    let lines = run_model(&stream.lines());
    let model: Vec<&str> = lines.lines().skip(10).collect();
    let mut expected: Vec<String> = [
        "register 0 F9FF",
        "register 1 0000",
        "register 2 8001",
        "register 3 0000",
        "register 4 0000",
        "register 5 0000",
        "register 6 00AB",
        "register 7 0000",
        "register 8 0000",
        "register 9 0000",
        "register A 0000",
        "l1id 01",
        "base 000000000105",
        "runmode 1",
        "pointers 0 02 00",
        "pointers 1 00 01",
    ]
    .map(String::from)
    .to_vec();
    expected.extend((2..15).map(|fifo| format!("pointers {fifo:X} 00 00")));
    expected.push("pointers F 02 00".to_string());
    for fifo in ["0", "F"] {
        expected.push(format!("word {fifo} 00 01234567"));
        expected.push(format!("word {fifo} 01 00000005"));
    }
    assert_eq!(model, expected);
}

/// The programs open with the default plan (document 02, F-9): registers 0
/// to 10 keep what is written, 11 to 15 are missing.
#[test]
fn the_registers_of_the_default_plan() {
    let stream = (0..16).fold(Stream::new(), |stream, address| {
        stream.wr_register(address, 0x4321).rd_register(address)
    });
    let mut records = String::new();
    let mut time = 0;
    for address in 0..16 {
        let (flags, read) = match address {
            // CSR bits 8 and 9 are not writable.
            0 => ("01", "4021"),
            1..=10 => ("01", "4321"),
            _ => ("08", "0000"),
        };
        for (kind, value) in [("20", "4321"), ("21", read)] {
            time += 33;
            let last = time - 1;
            records += &format!("{last:012X} {kind} {flags} {address:04X}{value}\n");
        }
    }
    let input = stream.lines();
    assert_eq!(run_station(&input), records);
    assert_eq!(run_reading(&input), records);
    let mut registers = "register 0 4021\n".to_string();
    // FEEN and CNT among them.
    registers.extend((1..=10).map(|address| format!("register {address:X} 4321\n")));
    let expected = format!("{records}{registers}l1id 00\n");
    assert!(run_model(&input).starts_with(&expected));
}

#[test]
fn line_numbers_are_hexadecimal() {
    for lines in [9, 15, 16, 255, 256, 65_534, 65_535, 65_536, 70_000, 200_000] {
        let mut input = vec![b'\n'; lines];
        input.push(b'A');
        let expected = format!("!08 {:08X}\n", lines + 1);
        assert_eq!(run_station(&input), expected);
        input.extend(b"0\n00\n\n?\n");
        let expected = format!("!07 {:08X}\n", lines + 4);
        assert_eq!(run_station(&input), expected);
    }
}

#[test]
fn very_long_lines() {
    let digits = "7".repeat(200_000);
    for (end, number) in [
        ("", "08"),
        ("7", "08"),
        ("a", "07"),
        ("\0", "07"),
        ("\r", "07"),
    ] {
        for feed in ["\n", ""] {
            let input = format!("B5C074\n{digits}{end}{feed}");
            let expected = format!("{FIRST}!{number} 00000002\n");
            assert_eq!(run_station(input.as_bytes()), expected);
            assert_eq!(run_reading(input.as_bytes()), expected);
        }
    }
}

#[test]
fn the_lines_themselves() {
    let mut out = Vec::new();
    let record = Record {
        time: (1 << 48) - 1,
        kind: 0x2F,
        flags: 0x0A,
        value: u32::MAX,
    };
    push_record(&mut out, &record);
    push_frame(&mut out, &[]);
    push_frame(&mut out, &[0x00, 0xA5]);
    push_refused(&mut out, 8, 0xFFFF_FFFF);
    push_refused(&mut out, 7, 0x1_0000_0000);
    let expected = "FFFFFFFFFFFF 2F 0A FFFFFFFF\n>00A5\n!08 FFFFFFFF\n!07 100000000\n";
    assert_eq!(String::from_utf8(out).unwrap(), expected);
}

/// What a program did, in order: reads, bytes written, flushes.
#[derive(Debug, PartialEq)]
enum Operation {
    Read,
    Written(usize),
    Flushed,
}

struct LoggedInput<'a>(Pieces, &'a RefCell<Vec<Operation>>);
struct LoggedOutput<'a>(&'a RefCell<Vec<Operation>>);

impl Read for LoggedInput<'_> {
    fn read(&mut self, buffer: &mut [u8]) -> io::Result<usize> {
        self.1.borrow_mut().push(Operation::Read);
        self.0.read(buffer)
    }
}

impl Write for LoggedOutput<'_> {
    fn write(&mut self, bytes: &[u8]) -> io::Result<usize> {
        self.0.borrow_mut().push(Operation::Written(bytes.len()));
        Ok(bytes.len())
    }

    fn flush(&mut self) -> io::Result<()> {
        self.0.borrow_mut().push(Operation::Flushed);
        Ok(())
    }
}

#[test]
fn all_is_written_and_flushed_before_the_next_read() {
    let log = RefCell::new(Vec::new());
    let pieces = Pieces::cut(b"B5C074\nE0B080\n", &[3, 7]);
    station(LoggedInput(pieces, &log), LoggedOutput(&log)).unwrap();
    let mut written = 0;
    let mut reads = Vec::new();
    let mut flushed = true;
    for operation in log.into_inner() {
        match operation {
            Operation::Read => {
                assert!(flushed);
                reads.push(written);
            }
            Operation::Written(bytes) => {
                written += bytes;
                flushed = bytes == 0 && flushed;
            }
            Operation::Flushed => flushed = true,
        }
    }
    // Ahead of each read: nothing, nothing, the first line's records, all.
    assert_eq!(reads, [0, 0, FIRST.len(), LISTING.len()]);
    assert!(flushed);
}

#[test]
fn output_goes_in_large_blocks() {
    let log = RefCell::new(Vec::new());
    let mut input = b"B5C000\n".to_vec();
    for _ in 0..4_000 {
        input.extend("E8".repeat(32).into_bytes());
        input.push(b'\n');
    }
    let length = input.len();
    station(LoggedInput(Pieces(vec![input]), &log), LoggedOutput(&log)).unwrap();
    let writes: Vec<usize> = log
        .into_inner()
        .iter()
        .filter_map(|operation| match operation {
            Operation::Written(bytes) if *bytes > 0 => Some(*bytes),
            _ => None,
        })
        .collect();
    let total: usize = writes.iter().sum();
    assert!(total > length && writes.len() <= total / 60_000 + length / 60_000 + 2);
}

struct FailingInput {
    before: Pieces,
    interrupted: u32,
    fails: bool,
}

impl Read for FailingInput {
    fn read(&mut self, buffer: &mut [u8]) -> io::Result<usize> {
        if self.interrupted > 0 {
            self.interrupted -= 1;
            return Err(ErrorKind::Interrupted.into());
        }
        match self.before.read(buffer)? {
            0 if self.fails => Err(ErrorKind::ConnectionReset.into()),
            length => Ok(length),
        }
    }
}

#[test]
fn a_failed_read_ends_the_run() {
    for fails in [true, false] {
        let input = FailingInput {
            before: Pieces::cut(b"B5C074\nE0B080\nA", &[5]),
            interrupted: 2,
            fails,
        };
        let mut out = Vec::new();
        let ended = station(input, &mut out);
        assert_eq!(ended.is_err(), fails);
        // The line under way has not ended when the read fails.
        let refused = if fails { "" } else { "!08 00000003\n" };
        assert_eq!(out, format!("{LISTING}{refused}").as_bytes());
    }
}

struct FullOutput;

impl Write for FullOutput {
    fn write(&mut self, _: &[u8]) -> io::Result<usize> {
        Err(ErrorKind::BrokenPipe.into())
    }

    fn flush(&mut self) -> io::Result<()> {
        Ok(())
    }
}

#[test]
fn a_failed_write_ends_the_run() {
    assert!(station(&b"B5C074\n"[..], FullOutput).is_err());
    assert!(reading(&b"X"[..], FullOutput).is_err());
    assert!(model(&b""[..], FullOutput).is_err());
}

/// The program itself, on a pipe that stays open: each line's records are
/// there before the next line is sent.
#[test]
fn a_live_pipe() {
    let mut child = Command::new(env!("CARGO_BIN_EXE_station"))
        .stdin(Stdio::piped())
        .stdout(Stdio::piped())
        .stderr(Stdio::null())
        .spawn()
        .unwrap();
    let mut input = child.stdin.take().unwrap();
    let output = BufReader::new(child.stdout.take().unwrap());
    // A thread reads, so that missing lines fail the test and do not hang it.
    let (sender, lines) = channel();
    let reader = spawn(move || {
        for line in output.lines() {
            sender.send(line.unwrap() + "\n").unwrap();
        }
    });
    let next = |count: usize| -> String {
        (0..count)
            .map_while(|_| lines.recv_timeout(Duration::from_secs(20)).ok())
            .collect()
    };
    input.write_all(b"B5C074\n").unwrap();
    assert_eq!(next(2), FIRST);
    input.write_all(b"E0B0").unwrap();
    input.write_all(b"80\n").unwrap();
    assert_eq!(next(2), LISTING[FIRST.len()..]);
    // A refused line ends the run though the pipe stays open.
    input.write_all(b"e0\n").unwrap();
    assert_eq!(next(1), "!07 00000003\n");
    assert_eq!(child.wait().unwrap().code(), Some(1));
    reader.join().unwrap();
}

/// A program on a pipe that stays open: it prints nothing for these lines, and
/// ends with the last one, whose line feed is sent alone.
fn ends_on_a_live_pipe(mut program: Command, lines: &[&str], printed: &[&str], status: i32) {
    let mut child = program
        .stdin(Stdio::piped())
        .stdout(Stdio::piped())
        .stderr(Stdio::null())
        .spawn()
        .unwrap();
    let mut input = child.stdin.take().unwrap();
    let output = BufReader::new(child.stdout.take().unwrap());
    let (sender, from_program) = channel();
    let reader = spawn(move || {
        for line in output.lines() {
            sender.send(line.unwrap()).unwrap();
        }
    });
    for line in lines {
        input.write_all(line.as_bytes()).unwrap();
        let waited = from_program.recv_timeout(Duration::from_millis(30));
        assert!(waited.is_err(), "{waited:?}");
    }
    input.write_all(b"\n").unwrap();
    for line in printed {
        let came = from_program.recv_timeout(Duration::from_secs(20));
        assert_eq!(came.as_deref(), Ok(*line));
    }
    assert_eq!(child.wait().unwrap().code(), Some(status));
    reader.join().unwrap();
    assert!(from_program.recv().is_err());
    drop(input);
}

/// `accept` (document 02, F-8) tells a fault as soon as the line has ended in
/// which it is found, and ends.
#[test]
fn accept_on_a_live_pipe() {
    let accept = Command::new(env!("CARGO_BIN_EXE_accept"));
    let lines = ["E8\n", "B0\n", "AC\n", "20"];
    ends_on_a_live_pipe(accept, &lines, &["!0F 000000000012"], 1);
}

/// `reply` (document 02, F-12) gives a whole reply as soon as its line has
/// ended, and ends; with a refused line too.
#[test]
fn reply_on_a_live_pipe() {
    let reply = || {
        let mut reply = Command::new(env!("CARGO_BIN_EXE_reply"));
        reply.arg("9");
        reply
    };
    let lines = ["\n", "07\n", "7FFF0000\n", "FFFF\n", "0000FFC0"];
    ends_on_a_live_pipe(reply(), &lines, &["whole 0009", ">CC80"], 0);
    let lines = ["07\n", "7FFF0000\n", "FFFFx"];
    ends_on_a_live_pipe(reply(), &lines, &["!07 00000003"], 1);
}
