//! Texts of orders (document 02, F-2): every command, every way to write one,
//! CNT as it is followed, each refusal with each reason, and what goes first.

use crate::generate::{bits, Addresses};
use crate::order_texts::{plain_text, LINE_CHARACTERS};
use crate::orders::{random_orders, Order, Ordered};
use crate::{code, Case, Random};

/// Name and text.
const FIT: [(&str, &[u8]); 43] = [
    ("empty-input", b""),
    ("line-feeds-only", b"\n\n\n"),
    ("comments-only", b"# no order\n#\n  # lv1\n"),
    ("blanks-only", b"  \n\t\n\r\n \t\r \n"),
    ("lv1", b"lv1\n"),
    ("bcr", b"bcr\n"),
    ("ecr", b"ecr\n"),
    ("cal", b"cal\n"),
    ("sync", b"sync\n"),
    ("wr-register", b"wr-register A 1234\n"),
    ("rd-register", b"rd-register A\n"),
    ("wr-fifo", b"wr-fifo 5ABCDEF\n"),
    ("rd-fifo", b"rd-fifo F\n"),
    ("wr-front-end", b"wr-register 5 48\nwr-front-end 5C8:9\n"),
    ("rd-front-end", b"wr-register 5 48\nrd-front-end 5C8:9\n"),
    ("wr-receiver", b"wr-register 5 2\nwr-receiver A53C\n"),
    ("en-data-take", b"en-data-take\n"),
    ("global-reset-mcc", b"global-reset-mcc\n"),
    ("global-reset-fe", b"global-reset-fe 5\n"),
    // Ahead of the first, between two, and 0 of them.
    ("zeros-ahead", b"lv1 3\nlv1 5\nbcr 0\ncal 2\n"),
    (
        "zeros-of-many-digits",
        b"lv1 00000000000000000000000000000003\n",
    ),
    ("no-last-line-feed", b"en-data-take\nlv1"),
    ("carriage-returns", b"en-data-take\r\nlv1 4\r\n"),
    ("tabs-and-spaces", b"\t wr-register \t A  \t12\t 3 \t\n"),
    (
        "comments",
        b"lv1# a trigger\nlv1 2#3\nlv1 2 # lv1 3\n#lv1\n",
    ),
    ("empty-lines", b"\nlv1\n\n \nlv1\n\n"),
    (
        "lower-case-digits",
        b"wr-register a beef\nwr-fifo 7fffffe\n",
    ),
    (
        "digits-ahead",
        b"wr-register 00000000000000000000A 000000000000000000001234\n",
    ),
    (
        "each-field-0",
        b"wr-register 0 0\nrd-register 0\nwr-fifo 0\n\
          rd-fifo 0\nglobal-reset-fe 0\n",
    ),
    (
        "each-field-largest",
        b"wr-register F FFFF\nrd-register F\nwr-fifo 7FFFFFF\n\
          rd-fifo F\nglobal-reset-fe F\n",
    ),
    (
        "missing-register",
        b"wr-register B 48\nrd-register B\nwr-front-end :0\n",
    ),
    // Frames of no bits, however they are written.
    (
        "frames-of-no-bits",
        b"wr-front-end :0\nrd-front-end 0:0\n\
          wr-receiver FF:00\nwr-receiver :0 3\n",
    ),
    (
        "no-receiver-bits-by-a-high-cnt",
        b"wr-register 5 E000\nwr-receiver :0\n",
    ),
    (
        "frame-all-digits",
        b"wr-register 5 1\nwr-front-end A5\nwr-receiver a5\n",
    ),
    // Bits past the count are not looked at.
    (
        "frame-more-digits",
        b"wr-register 5 48\nwr-front-end 5CFFFFF:9\nwr-front-end 5C8:00009\n",
    ),
    (
        "frame-control-bits",
        b"wr-register 5 F\nwr-front-end FFFFFFFFFFFFFF8:57\n",
    ),
    (
        "frame-zeros-ahead",
        b"wr-register 5 1\nwr-receiver 80 7\nrd-front-end 80 1\n",
    ),
    (
        "cnt-written-twice",
        b"wr-register 5 1\nwr-register 5 2\nwr-receiver A53C\n",
    ),
    (
        "cnt-and-others",
        b"wr-register 5 1\nwr-register 4 2\nwr-register F 2\nwr-receiver A5\n",
    ),
    (
        "cnt-after-a-reset",
        b"wr-register 5 1\nglobal-reset-mcc\nwr-receiver :0\n",
    ),
    (
        "cnt-after-a-front-end-reset",
        b"wr-register 5 1\nglobal-reset-fe F\nwr-receiver A5\n",
    ),
    (
        "slow-asks-none",
        b"en-data-take\nlv1\nen-data-take\nbcr\nlv1\nen-data-take\nsync\n",
    ),
    (
        "just-the-zeros",
        b"bcr\nbcr 2\nlv1\necr\ncal 1\nsync\nlv1 4\n\
          bcr\nen-data-take 2\necr\nrd-register 0 1\nsync\nsync\n",
    ),
];

/// Name and text, which is refused with number 9.
const WRONG: [(&str, &[u8]); 56] = [
    ("name", b"lv1\nlv2\n"),
    ("name-upper-case", b"LV1\n"),
    ("name-mixed-case", b"en-data-Take\n"),
    ("name-cut", b"lv\n"),
    ("name-longer", b"lv10\n"),
    ("name-underscores", b"en_data_take\n"),
    ("name-of-a-record", b"28\n"),
    ("name-bad-fast", b"bad-fast\n"),
    ("name-comma", b"lv1,\n"),
    ("name-a-capture", b"B5C074\nE0B080\n"),
    ("name-high-bytes", b"lv1\n\xC3\xBC\n"),
    ("name-nul", b"lv1\x00\n"),
    ("name-form-feed", b"lv1\x0C3\n"),
    ("name-no-break-space", b"lv1\xA03\n"),
    ("name-no-line-feed", b"lv1\nx"),
    ("fields-one-too-many", b"lv1 1 1\n"),
    ("fields-missing", b"wr-register\n"),
    ("fields-one-missing", b"wr-register 5\n"),
    ("fields-behind-zeros", b"wr-register 5 1 2 3\n"),
    ("fields-no-frame", b"wr-front-end\n"),
    ("fields-no-frame-no-bits", b"wr-receiver # 0 bits\n"),
    ("fields-in-a-comment", b"wr-fifo #5\n"),
    ("address-too-large", b"wr-register 10 0\n"),
    ("address-of-a-read-too-large", b"rd-register 10\n"),
    ("fifo-too-large", b"rd-fifo 1F\n"),
    ("value-too-large", b"wr-register 5 10000\n"),
    ("word-too-large", b"wr-fifo 8000000\n"),
    ("sync-width-too-large", b"global-reset-fe 10\n"),
    ("value-beyond-64-bits", b"wr-register 5 10000000000000001\n"),
    (
        "address-beyond-64-bits",
        b"rd-fifo 100000000000000000000000000000001\n",
    ),
    ("address-no-number", b"rd-register g\n"),
    ("address-prefix", b"rd-register 0x5\n"),
    ("address-sign", b"rd-register +5\n"),
    ("value-no-number", b"wr-register 5 12.\n"),
    ("value-no-number-and-too-large", b"wr-register 5 100000z\n"),
    ("zeros-no-number", b"lv1 x\n"),
    ("zeros-hexadecimal", b"lv1 A\n"),
    ("zeros-negative", b"lv1 -1\n"),
    ("zeros-a-frame", b"lv1 5:3\n"),
    ("frame-no-number", b"wr-receiver x:0\n"),
    (
        "frame-no-number-past-the-count",
        b"wr-register 5 1\nwr-receiver A5x:8\n",
    ),
    ("frame-no-count", b"wr-receiver 0:\n"),
    ("frame-colon-alone", b"wr-receiver :\n"),
    ("frame-two-colons", b"wr-receiver 0:0:0\n"),
    ("frame-hexadecimal-count", b"wr-receiver FFF:A\n"),
    ("frame-fewer-digits", b"wr-register 5 1\nwr-receiver A:8\n"),
    ("frame-no-digits", b"wr-register 5 1\nwr-receiver :8\n"),
    (
        "frame-count-beyond-64-bits",
        b"wr-receiver 0:18446744073709551616\n",
    ),
    ("frame-bits-more", b"wr-register 5 1\nwr-receiver A5A\n"),
    ("frame-bits-fewer", b"wr-register 5 2\nwr-receiver A5\n"),
    ("frame-bits-at-first", b"lv1\nwr-front-end 0\n"),
    (
        "frame-bits-of-a-receiver",
        b"wr-register 5 48\nwr-receiver 5C8:9\n",
    ),
    (
        "frame-bits-of-a-front-end",
        b"wr-register 5 48\nrd-front-end 5C8\n",
    ),
    (
        "frame-bits-after-a-reset",
        b"wr-register 5 1\nglobal-reset-mcc\nwr-front-end A5\n",
    ),
    (
        "frame-bits-of-another-register",
        b"wr-register 5 1\nwr-register 4 2\nwr-receiver A53C\n",
    ),
    (
        "frame-bits-past-the-count",
        b"wr-register 5 1\nwr-receiver A5:7\n",
    ),
];

/// Name and text, which is refused with number 10.
const CLOSE: [(&str, &[u8]); 9] = [
    ("bcr", b"bcr\nbcr\n"),
    ("bcr-1", b"bcr\nbcr 1\n"),
    ("ecr", b"ecr\ncal\n"),
    ("sync", b"sync\nlv1 3\n"),
    ("slow", b"bcr\nen-data-take 1\n"),
    (
        "slow-after-ecr",
        b"# a comment\necr\n\nrd-register 0 # no zeros\n",
    ),
    ("frame", b"ecr\nwr-front-end :0\n"),
    ("no-line-feed", b"sync\nlv1"),
    (
        "later",
        b"lv1\nlv1\nlv1\nbcr\nlv1\nbcr\nlv1\nbcr\nlv1\nbcr\nlv1\n\
          bcr\nlv1\nbcr\nlv1\nbcr\nlv1\nlv1\necr\necr\n",
    ),
];

/// Name and text: which of several goes first.
const FIRST: [(&str, &[u8]); 12] = [
    ("9-ahead-of-10-in-a-line", b"bcr\nwr-receiver FF\n"),
    ("9-form-ahead-of-10-in-a-line", b"bcr\nwr-fifo 8000000\n"),
    ("10-ahead-of-9-in-a-later-line", b"bcr\nbcr\nx\n"),
    ("9-ahead-of-10-in-a-later-line", b"x\nbcr\nbcr\n"),
    ("9-after-too-many-zeros", b"lv1 99999999999\nx\n"),
    ("10-after-too-many-zeros", b"lv1 99999999999\nbcr\nbcr\n"),
    ("name-ahead-of-fields", b"lv2 1 2 3\n"),
    ("fields-ahead-of-numbers", b"wr-register x y z z\n"),
    ("numbers-ahead-of-frame-bits", b"wr-receiver FF x\n"),
    ("11-zeros", b"lv1 8388604\n"),
    (
        "11-zeros-beyond-64-bits",
        b"lv1\nlv1 18446744073709551616\nlv1\n",
    ),
    (
        "11-sum-beyond-64-bits",
        b"lv1 18446744073709551615\nlv1 18446744073709551615\n",
    ),
];

pub fn cases() -> Vec<Case> {
    let text = |name: String, input: &[u8]| golden_if_text(case(&name, input));
    let mut cases = Vec::new();
    for (start, texts) in [
        ("", &FIT[..]),
        ("wrong-", &WRONG),
        ("close-", &CLOSE),
        ("first-", &FIRST),
    ] {
        cases.extend(
            texts
                .iter()
                .map(|(name, input)| text(format!("{start}{name}"), input)),
        );
    }
    cases.extend(every_pair());
    cases.extend(frames());
    cases.extend(long_lines());
    cases.extend(streams_about_the_longest());
    cases.extend(many_lines());
    cases
}

fn case(name: &str, input: impl Into<Vec<u8>>) -> Case {
    Case::new(format!("compose/{name}"), input)
}

fn golden_if_text(case: Case) -> Case {
    let text = |&c: &u8| (b' '..=b'~').contains(&c) || b"\n\r\t".contains(&c);
    let golden = case.input.iter().all(text);
    case.golden_if(golden)
}

/// Every command; frames are of one byte.
fn every_command() -> [Ordered; 15] {
    let frame = vec![true, false, true, false, false, true, false, true];
    [
        Ordered::Lv1,
        Ordered::Fast(code::BCR),
        Ordered::Fast(code::ECR),
        Ordered::Fast(code::CAL),
        Ordered::Fast(code::SYNC),
        Ordered::WrRegister(4, 0x1234),
        Ordered::RdRegister(3),
        Ordered::WrFifo(0x5AB_CDEF),
        Ordered::RdFifo(9),
        Ordered::FrontEnd(code::WR_FRONT_END, frame.clone()),
        Ordered::FrontEnd(code::RD_FRONT_END, frame.clone()),
        Ordered::WrReceiver(frame),
        Ordered::EnDataTake,
        Ordered::ResetMcc,
        Ordered::ResetFe(6),
    ]
}

fn plain(zeros: u64, command: Ordered) -> Order {
    Order { zeros, command }
}

/// A line that has CNT ask for frames of one byte.
const ONE_BYTE: Ordered = Ordered::WrRegister(5, 1);

/// Each command after each, with just the zeros asked; and with one fewer.
fn every_pair() -> Vec<Case> {
    let mut cases = Vec::new();
    let mut just = Vec::new();
    for one in every_command() {
        for other in every_command() {
            // The frame behind a reset has no bits.
            if one == Ordered::ResetMcc && other.frame().is_some() {
                continue;
            }
            let asked = one.zeros_ahead_of(&other);
            let name = format!("close-{}-{}", one.name(), other.name());
            let ahead = [plain(9, ONE_BYTE), plain(0, one.clone())];
            just.extend(ahead.clone());
            just.push(plain(asked, other.clone()));
            if asked > 0 {
                let close = plain(asked - 1, other);
                let text = plain_text(&[&ahead[..], &[close]].concat());
                cases.push(case(&name, text));
            }
        }
    }
    cases.push(case("every-pair", plain_text(&just)));
    cases
}

/// Frames as long as they come, with a bit fewer and a bit more.
fn frames() -> Vec<Case> {
    let mut random = Random::new(0xF2);
    let mut cases = Vec::new();
    for (cnt, name) in [(0xFFFF, "longest"), (0x1FFF, "1fff"), (0x0107, "mixed")] {
        for field3 in [code::WR_FRONT_END, code::RD_FRONT_END, code::WR_RECEIVER] {
            let count = match field3 {
                code::WR_RECEIVER => code::receiver_bits(cnt),
                _ => code::front_end_bits(cnt),
            };
            for (given, how) in [(count, ""), (count - 1, "-fewer"), (count + 1, "-more")] {
                let frame = bits(&mut random, given);
                let command = match field3 {
                    code::WR_RECEIVER => Ordered::WrReceiver(frame),
                    _ => Ordered::FrontEnd(field3, frame),
                };
                let name = format!("frame-{name}-{}{how}", command.name());
                let orders = [
                    plain(0, Ordered::WrRegister(5, cnt)),
                    plain(3, command),
                    plain(0, Ordered::Lv1),
                ];
                cases.push(case(&name, plain_text(&orders)));
            }
        }
    }
    cases
}

/// Lines of the most characters, and of one more: blanks, a comment, a number.
fn long_lines() -> Vec<Case> {
    let mut cases = Vec::new();
    let number = "wr-register 5 0000";
    for (name, start, fill, end) in [
        ("blanks", "lv1", " ", ""),
        ("comment", "lv1 #", "x", ""),
        ("blanks-and-a-number", "lv1", " ", "2"),
        ("number", number, "0", "1"),
        ("zeros", "lv1 0", "0", "7"),
        ("name", "lv1", "x", ""),
        ("blank", "", " ", ""),
    ] {
        for (more, how) in [(0, "most"), (1, "more"), (40_000, "far-more")] {
            let filled = LINE_CHARACTERS + more - start.len() - end.len();
            let line = format!("{start}{}{end}", fill.repeat(filled));
            let text = format!("lv1\n{line}\nlv1\n");
            cases.push(case(&format!("line-{name}-{how}"), text));
        }
    }
    // The last line, which no line feed ends.
    let open = "lv1\nlv1".to_string() + &" ".repeat(LINE_CHARACTERS - 3);
    cases.push(case("line-open-most", open.clone()));
    cases.push(case("line-open-more", open + " "));
    cases
}

/// Streams of just a mebibyte and of a bit more, by zeros and by orders.
fn streams_about_the_longest() -> Vec<Case> {
    const BITS: usize = 8 << 20;
    let zeros = |zeros: usize| format!("lv1 {zeros}\n");
    // A frame of 65,976 cycles takes a short line.
    let frame = "wr-front-end ".to_string() + &"A5".repeat(1_031) + ":8247\n";
    let frame_bits = 17 + 8 * 8_247;
    let count = BITS / frame_bits;
    let frames = "wr-register 5 FFFF\n".to_string() + &frame.repeat(count);
    let left = BITS - 33 - count * frame_bits;
    vec![
        case("longest-zeros", zeros(BITS - 5)),
        case("longest-zeros-1", zeros(BITS - 4)),
        case("longest-frames", format!("{frames}lv1 {}\n", left - 5)),
        case("longest-frames-1", format!("{frames}lv1 {}\n", left - 4)),
        case("longest-then-wrong", zeros(BITS) + "lv1\nlv1 x\n"),
    ]
}

/// Bytes that a program reads at a time.
const BLOCK: usize = 65_536;

/// More than a block of text, whose edge cuts a line; and refused lines behind
/// so much.
fn many_lines() -> Vec<Case> {
    let fit = blocks(1);
    let much = blocks(2);
    let mut cases = vec![
        case("a-block", fit.clone()),
        case("blocks-no-last-line-feed", much.trim_end().to_string()),
        case("blocks-then-wrong", format!("{much}x\n")),
        case("blocks-then-close", format!("{much}sync 9\nlv1\nlv1 x\n")),
        case("blocks-then-too-long", format!("{much}lv1 9999999\nlv1\n")),
    ];
    for ahead in [9, 15, 255, 65_535, 70_000] {
        let text = "\n".repeat(ahead) + "lv1 x\n";
        cases.push(case(&format!("wrong-line-{}", ahead + 1), text));
    }
    cases
}

/// Fit lines that are just longer than so many blocks.
fn blocks(count: usize) -> String {
    let mut random = Random::new(0xF200 + count as u64);
    let short = |order: &Order| order.command.frame().is_none_or(|frame| frame.len() <= 64);
    let mut text = String::new();
    while text.len() <= count * BLOCK {
        let orders = random_orders(&mut random, Addresses::DEFAULT, 40);
        if orders.iter().all(short) {
            // With CNT 0 and nothing asked, as at the start of a text.
            text += "global-reset-mcc 9\n";
            text += &plain_text(&orders);
        }
    }
    text
}
