//! Hexadecimal lines of the line back (document 02, F-12): whole replies, ones
//! that are cut short, lines without a header, and refused lines ahead of the
//! end of a reply and behind it.

use crate::replies::no_header;
use crate::{code, generate, Case, Random, Stream};

/// Name, expected bits and input.
const LINES: [(&str, u64, &[u8]); 41] = [
    // No header.
    ("no-header-empty-input", 1, b""),
    ("no-header-line-feeds-only", 16, b"\n\n\n"),
    ("no-header-zeros", 8_191, b"0000\n00\n"),
    ("no-header-ones", 1, b"FFFF\nFF"),
    ("no-header-four-bits", 1, b"0E\n"),
    ("no-header-four-bits-then-empty-lines", 1, b"07\n\n\n"),
    // Cut short with no bit: the header is the end, or seven cycles follow it.
    ("cut-at-the-header", 1, b"1D\n"),
    ("cut-at-the-header-no-last-line-feed", 8_191, b"1D"),
    ("cut-seven-cycles", 1, b"0EFF\n"),
    ("cut-seven-cycles-then-empty-lines", 1, b"0E\nFF\n\n\n"),
    // With some.
    ("cut-one-bit-missing", 3, b"1DFF00\n"),
    ("cut-one-cycle-missing", 2, b"0EFF80\n"),
    ("cut-no-last-line-feed", 16, b"1D\n7F\n00FF"),
    // 4 ones and a first 1, 4 ones and a first 0, 5 ones.
    ("whole-in-a-line", 3, b"1DF00F1F\n"),
    ("whole-no-last-line-feed", 1, b"1D7F"),
    ("whole-across-a-line", 1, b"1D\n7F\n"),
    ("whole-across-empty-lines", 3, b"\n07\n\n\n43\nFC\n\n07F8\n"),
    ("whole-header-across-a-line", 1, b"07\n7F\nC0\n"),
    ("whole-header-by-a-bit", 1, b"0E\n87\nFF\n"),
    // What is behind a whole reply does not count.
    ("whole-bits-behind", 1, b"1D7F0000\n"),
    ("whole-lines-behind", 1, b"1D7F\n00\nFFFF\n"),
    ("whole-another-reply-behind", 2, b"1DFF00\n1D00FF\n"),
    ("whole-ahead-of-a-wrong-line", 1, b"1D7F\nx\n"),
    ("whole-ahead-of-an-odd-line", 1, b"1D7F\n0\n"),
    ("whole-ahead-of-a-lower-case-line", 2, b"1D7F00\n\n7f\n"),
    ("whole-ahead-of-a-wrong-end", 1, b"1D7F\n0x"),
    // The line is what is printed: of an unfinished reply nothing is.
    ("line-wrong-at-once", 1, b"x\n1D7F\n"),
    ("line-odd-at-once", 1, b"1\n1D7F\n"),
    ("line-wrong-after-no-header", 1, b"00\n 0\n"),
    ("line-odd-after-no-header", 1, b"00\n\n000\n"),
    ("line-wrong-after-the-header", 1, b"1D\n7f\n"),
    ("line-odd-after-the-header", 1, b"1D\n\n7\n"),
    ("line-wrong-after-bits", 2, b"1D7F\nx\n00\n"),
    ("line-odd-after-bits", 2, b"1D7F\n000\n"),
    ("line-wrong-no-last-line-feed", 2, b"1D7F\n0G"),
    ("line-odd-no-last-line-feed", 2, b"1D7F\n0"),
    ("line-carriage-return", 1, b"1D7F\r\n"),
    // Its bits would make the reply whole.
    ("line-wrong-with-the-last-bit", 1, b"1D7Fx\n"),
    ("line-odd-with-the-last-bit", 1, b"1D7F0\n"),
    ("line-odd-with-the-last-bit-at-the-end", 1, b"1D\n7F0"),
    ("line-wrong-ahead-of-an-odd-one", 1, b"1D\nx\n0\n"),
];

/// Bytes that a program reads at a time.
const BLOCK: usize = 65_536;

/// Bits that can be expected at most.
const MOST: u64 = 8_191;

/// A reply of three bits, whole with so many characters, and a wrong line.
const TEXT: &str = "07\n\n43\nFC\n07F8\nx0\n";
const BITS: u64 = 3;
const WHOLE: usize = 15;

pub fn cases() -> Vec<Case> {
    let golden =
        |(name, count, input): (&str, u64, &[u8])| case(name, count, input).golden_if(true);
    let mut cases: Vec<Case> = LINES.into_iter().map(golden).collect();
    cases.extend(headers());
    cases.extend(counts());
    cases.extend(line_lengths());
    cases.extend(cut_everywhere());
    cases.extend(long());
    cases.extend(greatest());
    cases
}

fn case(name: &str, count: u64, input: impl Into<Vec<u8>>) -> Case {
    Case::reply(format!("reply/{name}"), count, input)
}

/// Short, with golden files.
fn stream(name: &str, count: u64, stream: &Stream) -> Case {
    case(name, count, stream.lines()).golden_if(true)
}

/// The header at each place of a byte, after zeros and after ones; with each
/// bit hit; ahead of another, and inside the data; and every group of cycles.
fn headers() -> Vec<Case> {
    let data = Stream::new().pattern("101").bits;
    let mut cases = Vec::new();
    for place in 0..=8 {
        let sent = Stream::new().zeros(place).reply(&data);
        cases.push(stream(&format!("place-{place}"), 3, &sent));
        let ones = Stream::new().raw(&vec![true; place]).reply(&data);
        let name = format!("place-{place}-after-ones");
        cases.push(stream(&name, 3, &ones).golden_if(false));
    }
    for (bit, hit) in (1..).zip(code::FLIPPED_LV1) {
        let sent = Stream::new().zeros(3).pattern(hit).number(0x00FF, 16);
        cases.push(stream(&format!("no-header-hit-{bit}"), 2, &sent));
    }
    let twice = Stream::new().pattern(code::REPLY_HEADER).zeros(3);
    cases.push(stream("header-twice", 3, &twice.reply(&data)));
    let at_once = Stream::new().pattern("111011101");
    cases.push(stream("header-twice-at-once", 2, &at_once.number(0xFF, 15)));
    let inside = Stream::new().reply_groups(&[0xE8, 0xFF, 0x1D]).zeros(3);
    cases.push(stream("headers-inside", 3, &inside));
    let groups: Vec<u8> = (0..=255).collect();
    let all = Stream::new().zeros(3).reply_groups(&groups);
    cases.push(stream("all-groups", 256, &all));
    cases
}

/// Replies of so many bits, of which fewer, all or more are expected: of ones,
/// so that an unused bit of the last byte shows.
fn counts() -> Vec<Case> {
    let mut cases = Vec::new();
    for count in [1, 2, 7, 8, 9, 15, 16, 17, 255, 256, 257] {
        let sent = Stream::new().zeros(3).reply(&vec![true; count as usize]);
        for (name, expected) in [("fewer", count - 1), ("all", count), ("more", count + 1)] {
            if expected > 0 {
                let name = format!("count-{count}-{name}");
                cases.push(stream(&name, expected, &sent).golden_if(count < 20));
            }
        }
        let most = format!("count-{count}-most");
        cases.push(stream(&most, MOST, &sent).golden_if(false));
    }
    cases
}

/// Lines of about the most digits, behind a header: with the last bit or not.
fn line_lengths() -> Vec<Case> {
    let mut cases = Vec::new();
    for digits in [62, 63, 64, 65, 66, 67, 128, 1_000] {
        let line = "F".repeat(digits);
        let whole = format!("1D\n{line}\n");
        let name = format!("line-of-{digits}-digits");
        cases.push(case(&name, 31, whole.clone()).golden_if(digits < 100));
        cases.push(case(&format!("{name}-cut"), 600, whole.clone()));
        let behind = format!("1D7F\n{line}\n");
        cases.push(case(&format!("{name}-behind"), 1, behind));
        cases.push(case(&format!("{name}-no-line-feed"), 31, whole.trim_end()));
    }
    cases
}

/// The input's end and a block's edge after each character of a reply, and of
/// the wrong line behind it.
fn cut_everywhere() -> Vec<Case> {
    let mut cases = Vec::new();
    for place in 0..=TEXT.len() {
        cases.push(case(&format!("end-{place:02}"), BITS, &TEXT[..place]));
        let ahead = no_header(BLOCK - place);
        let name = format!("edge-{place:02}");
        cases.push(case(&name, BITS, ahead.clone() + TEXT));
        let cut = ahead + &TEXT[..WHOLE - 1];
        cases.push(case(&format!("{name}-more-expected"), BITS + 1, cut));
    }
    // The reply is whole with the last character of a block.
    for (name, behind) in [
        ("", String::new()),
        ("-ahead-of-an-odd-line", "0\n".to_string()),
        ("-ahead-of-a-block", no_header(BLOCK)),
    ] {
        for blocks in [1, 2] {
            let ahead = no_header(blocks * BLOCK - WHOLE);
            let input = ahead + &TEXT[..WHOLE] + &behind;
            cases.push(case(
                &format!("whole-with-block-{blocks}{name}"),
                BITS,
                input,
            ));
        }
    }
    cases
}

/// More than two blocks, or one.
fn long() -> Vec<Case> {
    let two = no_header(2 * BLOCK + 1);
    let mut cases = Vec::new();
    for (name, end) in [
        ("no-header", ""),
        ("whole", "1DFF00FF\n"),
        ("whole-no-last-line-feed", "1DFF00FF"),
        ("whole-then-wrong", "1DFF00FF\nx\n"),
        ("cut", "1DFF\n"),
        ("cut-no-bits", "1D"),
        ("line-wrong", "1DFF\nx\n"),
        ("line-odd", "1DFF\n0\n"),
        ("line-odd-at-the-end", "1DFF\n0"),
    ] {
        let input = two.clone() + end;
        cases.push(case(&format!("blocks-{name}"), BITS, input.clone()));
        let more = input + "\n" + &two;
        cases.push(case(&format!("blocks-{name}-and-more"), BITS, more));
    }
    // A reply that a block's edge cuts, and a line that is not looked at.
    let data = generate::bits(&mut Random::new(0xF12), 100);
    let reply = String::from_utf8(Stream::new().zeros(3).reply(&data).lines()).expect("digits");
    let input = no_header(BLOCK - 100) + &reply + "x\n";
    cases.push(case("a-block", 100, input));
    cases
}

/// As many bits as can be expected: in full lines, and a byte a line with
/// empty ones between, which is more than a block.
fn greatest() -> Vec<Case> {
    let data = generate::bits(&mut Random::new(0xF12_0001), MOST as u32);
    let sent = Stream::new().zeros(3).reply(&data);
    let bytes = sent.bytes();
    let apart = |bytes: &[u8]| -> String {
        let line = |byte: &u8| format!("{byte:02X}\n\n\n\n\n\n\n");
        bytes.iter().map(line).collect()
    };
    let short = &bytes[..bytes.len() - 1];
    vec![
        case("greatest", MOST, sent.lines()),
        case("greatest-but-one", MOST - 1, sent.lines()),
        case("greatest-apart", MOST, apart(&bytes)),
        case("greatest-apart-then-wrong", MOST, apart(&bytes) + "x\n"),
        case("greatest-cut", MOST, apart(short)),
        case("greatest-refused", MOST, apart(short) + "0x\n"),
    ]
}
