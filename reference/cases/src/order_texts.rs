//! Texts of orders for the program that composes (document 02, F-2): fit ones,
//! written in many ways, and the same with a flaw.

use crate::orders::Order;
use crate::Random;

/// The words of an order in their plainest form.
pub fn words(order: &Order) -> Vec<String> {
    let mut words = vec![order.command.name().to_string()];
    words.extend(order.command.address().map(|a| format!("{a:X}")));
    words.extend(order.command.value().map(|(value, _)| format!("{value:X}")));
    words.extend(order.command.frame().map(frame_word));
    if order.zeros > 0 {
        words.push(order.zeros.to_string());
    }
    words
}

/// A frame's digits, and the count of its bits if they give more.
pub fn frame_word(frame: &[bool]) -> String {
    let digit = |nibble: &[bool]| {
        let bits = nibble.iter().fold(0, |d, &bit| d << 1 | u32::from(bit));
        format!("{:X}", bits << (4 - nibble.len()))
    };
    let digits: String = frame.chunks(4).map(digit).collect();
    match frame.len().is_multiple_of(4) && !frame.is_empty() {
        true => digits,
        false => format!("{digits}:{}", frame.len()),
    }
}

/// A plain text: a line an order.
pub fn plain_text(orders: &[Order]) -> String {
    let line = |order: &Order| words(order).join(" ") + "\n";
    orders.iter().map(line).collect()
}

/// What is wrong with a text.
#[derive(Clone, Copy, Debug, PartialEq, Eq)]
pub enum TextFlaw {
    Nothing,
    Name,
    /// A word is missing, or there are more.
    Words,
    /// A field or the zeros are no number.
    NoNumber,
    TooLarge,
    /// A frame has another count of bits, or fewer digits.
    Frame,
    /// Fewer zeros than the timing table asks.
    Zeros,
    ManyZeros,
    LongLine,
    /// Any character in any place.
    Character,
    /// The text ends anywhere.
    Cut,
}

impl TextFlaw {
    pub const ALL: [TextFlaw; 11] = [
        TextFlaw::Nothing,
        TextFlaw::Name,
        TextFlaw::Words,
        TextFlaw::NoNumber,
        TextFlaw::TooLarge,
        TextFlaw::Frame,
        TextFlaw::Zeros,
        TextFlaw::ManyZeros,
        TextFlaw::LongLine,
        TextFlaw::Character,
        TextFlaw::Cut,
    ];
}

/// A text of these orders, written in many ways, with this flaw somewhere. If
/// no order can have it, nothing is wrong with the text.
pub fn random_text(orders: &[Order], flaw: TextFlaw, random: &mut Random) -> Vec<u8> {
    let mut lines: Vec<Vec<String>> = orders.iter().map(|o| varied_words(o, random)).collect();
    let place = random.below(lines.len().max(1) as u64) as usize;
    if let Some(order) = orders.get(place) {
        put_into_words(flaw, &mut lines[place], order, random);
    }
    if let (TextFlaw::Zeros, Some(number)) = (flaw, too_close(orders, random)) {
        lines[number] = words(&Order {
            zeros: 0,
            ..orders[number].clone()
        });
    }
    let mut text = Vec::new();
    for (number, line) in lines.iter().enumerate() {
        filler(&mut text, random);
        push_line(&mut text, line, random);
        if flaw == TextFlaw::LongLine && number == place {
            long_line(&mut text, random);
        }
    }
    filler(&mut text, random);
    if random.one_in(4) {
        text.pop();
    }
    let somewhere = random.below(text.len().max(1) as u64) as usize;
    match flaw {
        TextFlaw::Character if !text.is_empty() => text[somewhere] = random.word() as u8,
        TextFlaw::Cut => text.truncate(somewhere),
        _ => {}
    }
    text
}

/// An order ahead of which the timing table asks for zeros.
fn too_close(orders: &[Order], random: &mut Random) -> Option<usize> {
    let asks = |number: &usize| {
        let before = &orders[number - 1].command;
        before.zeros_ahead_of(&orders[*number].command) > 0
    };
    let all: Vec<usize> = (1..orders.len()).filter(asks).collect();
    (!all.is_empty()).then(|| all[random.below(all.len() as u64) as usize])
}

/// The words of an order with zeros ahead of its numbers, in upper or lower
/// case, more digits than a frame has bits, and its zeros also if none.
fn varied_words(order: &Order, random: &mut Random) -> Vec<String> {
    let mut words = words(order);
    if order.zeros == 0 && random.one_in(4) {
        words.push("0".to_string());
    }
    let numbers = 1 + usize::from(order.command.address().is_some());
    let numbers = numbers + usize::from(order.command.value().is_some());
    for word in &mut words[1..numbers] {
        if random.one_in(6) {
            *word = "0".repeat(1 + random.below(20) as usize) + word;
        }
        if random.bit() {
            *word = word.to_lowercase();
        }
    }
    if let Some(frame) = order.command.frame() {
        words[numbers] = varied_frame(frame, &words[numbers], random);
    }
    words
}

fn varied_frame(frame: &[bool], plain: &str, random: &mut Random) -> String {
    let digits = plain.split(':').next().unwrap_or_default();
    match random.below(4) {
        0 => plain.to_lowercase(),
        1 => {
            let more = random.word() >> random.below(64);
            format!("{digits}{more:x}:{}", frame.len())
        }
        2 => format!("{digits}:000{}", frame.len()),
        _ => plain.to_string(),
    }
}

/// Puts a flaw into the words of a line, if it has a place there.
fn put_into_words(flaw: TextFlaw, words: &mut Vec<String>, order: &Order, random: &mut Random) {
    let place = random.below(words.len() as u64) as usize;
    match flaw {
        TextFlaw::Name => words[0] = other_name(&words[0], random),
        TextFlaw::Words if place > 0 && random.bit() => drop(words.remove(place)),
        TextFlaw::Words => words.extend(["0", "1"].map(str::to_string)),
        TextFlaw::NoNumber => {
            let wrong = any_of(&NO_NUMBERS, random).to_string();
            match place {
                0 => words.push(wrong),
                _ => words[place] = wrong,
            }
        }
        TextFlaw::TooLarge if place > 0 => words[place] = any_of(&TOO_LARGE, random).to_string(),
        TextFlaw::Frame => {
            if let Some(frame) = order.command.frame() {
                words[1] = wrong_frame(frame.len(), random);
            }
        }
        TextFlaw::ManyZeros => {
            *words = self::words(&Order {
                zeros: 0,
                ..order.clone()
            });
            words.push(any_of(&MANY_ZEROS, random).to_string());
        }
        _ => {}
    }
}

const NO_NUMBERS: [&str; 9] = ["x", "-1", "+1", "0x1", "1.", "1,", ":", "1:1:1", "\u{FC}"];

const TOO_LARGE: [&str; 4] = ["10", "10000", "8000000", "FFFFFFFFFFFFFFFFF"];

/// More than a mebibyte has bits, about 2^48 and 2^64, and beyond.
const MANY_ZEROS: [&str; 5] = [
    "8388609",
    "281474976710656",
    "18446744073709551615",
    "18446744073709551616",
    "99999999999999999999999999",
];

fn any_of<'a>(list: &[&'a str], random: &mut Random) -> &'a str {
    list[random.below(list.len() as u64) as usize]
}

fn other_name(name: &str, random: &mut Random) -> String {
    match random.below(5) {
        0 => name.to_uppercase(),
        1 => format!("{name}s"),
        2 => name[1..].to_string(),
        3 => "bad-fast".to_string(),
        _ => "28".to_string(),
    }
}

/// More bits than CNT asks, or fewer digits than the count.
fn wrong_frame(count: usize, random: &mut Random) -> String {
    match random.below(4) {
        0 => format!(":{}", count + 1),
        1 => format!("0:{}", count + 5),
        2 => format!("{}:{}", "A".repeat(count / 4 + 2), count + 1),
        _ => "5".repeat(count / 4 + 1),
    }
}

/// Lines without an order.
fn filler(text: &mut Vec<u8>, random: &mut Random) {
    while random.one_in(6) {
        let lines: [&[u8]; 5] = [b"\n", b" \t\r\n", b"# lv1\n", b"  #\xFF\x00#\n", b"\r\n"];
        text.extend(lines[random.below(5) as usize]);
    }
}

fn blanks(text: &mut Vec<u8>, random: &mut Random) {
    let blanks: [&[u8]; 6] = [b" ", b" ", b"\t", b"  ", b" \r\t", b"   \t"];
    text.extend(blanks[random.below(6) as usize]);
}

fn push_line(text: &mut Vec<u8>, words: &[String], random: &mut Random) {
    for (number, word) in words.iter().enumerate() {
        if number > 0 || random.one_in(8) {
            blanks(text, random);
        }
        text.extend(word.bytes());
    }
    if random.one_in(8) {
        blanks(text, random);
    }
    if random.one_in(8) {
        text.extend(b"# a comment # \xC3\xBC");
    }
    text.push(b'\n');
}

/// Characters that a line may have at most.
pub const LINE_CHARACTERS: usize = 32_768;

/// A comment of just so many characters, or too many.
fn long_line(text: &mut Vec<u8>, random: &mut Random) {
    text.resize(text.len() + 3, b' ');
    text.resize(text.len() + LINE_CHARACTERS - 3, b'#');
    text.resize(text.len() + random.below(3) as usize, b'x');
    text.push(b'\n');
}
