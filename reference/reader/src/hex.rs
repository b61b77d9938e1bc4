//! Hexadecimal lines (numbers 7 and 8 of the refusal table).

use crate::refusal::{Why, LINE_DIGITS};

/// A line as it arrives, character by character. A line of any length needs
/// no more room than this: beyond its first digits only their count and the
/// first wrong character decide.
#[derive(Clone, Debug, Default)]
pub struct HexLine {
    characters: u64,
    /// Place, from 1, and byte of the first character that is no digit.
    wrong: Option<(u64, u8)>,
    bytes: [u8; LINE_DIGITS as usize / 2],
}

impl HexLine {
    /// Takes a character; a line feed is not one of a line's characters.
    pub fn push(&mut self, character: u8) {
        let place = self.characters;
        self.characters += 1;
        match digit(character) {
            None => self.wrong = self.wrong.or(Some((self.characters, character))),
            Some(digit) => {
                if let Some(byte) = self.bytes.get_mut((place / 2) as usize) {
                    *byte = *byte << 4 | digit;
                }
            }
        }
    }

    /// Whether any character came, so that an end of the input ends a line.
    pub fn started(&self) -> bool {
        self.characters > 0
    }

    /// The bytes of the whole line, or why it is refused.
    pub fn bytes(&self) -> Result<&[u8], Why> {
        if let Some((place, byte)) = self.wrong {
            return Err(Why::Character { place, byte });
        }
        // All are digits.
        let digits = self.characters;
        if digits % 2 == 1 || digits > LINE_DIGITS {
            return Err(Why::Digits(digits));
        }
        Ok(&self.bytes[..(digits / 2) as usize])
    }
}

fn digit(character: u8) -> Option<u8> {
    match character {
        b'0'..=b'9' => Some(character - b'0'),
        b'A'..=b'F' => Some(character - b'A' + 10),
        _ => None,
    }
}

/// The bytes of one line, given without its line feed, or the number with
/// which it is refused.
pub fn hex_line(line: &[u8]) -> Result<Vec<u8>, u8> {
    let mut taken = HexLine::default();
    for &character in line {
        taken.push(character);
    }
    taken.bytes().map(<[u8]>::to_vec).map_err(Why::number)
}
