//! Where an output differs from the expected one.

use std::fmt;

/// The first differing byte, as `cmp` counts it: from 1.
#[derive(Clone, Debug, PartialEq, Eq)]
pub struct Difference {
    pub byte: usize,
    pub line: usize,
    expected: String,
    got: String,
}

/// `None` for equal outputs.
pub fn difference(expected: &[u8], got: &[u8]) -> Option<Difference> {
    let alike = expected.iter().zip(got).take_while(|(e, g)| e == g).count();
    if alike == expected.len() && alike == got.len() {
        return None;
    }
    let feeds = expected[..alike].iter().filter(|&&byte| byte == b'\n');
    Some(Difference {
        byte: alike + 1,
        line: feeds.count() + 1,
        expected: about(expected, alike),
        got: about(got, alike),
    })
}

/// Bytes shown on either side of a place.
const SHOWN: usize = 30;

/// The part of the line about a place, in printable characters.
fn about(output: &[u8], place: usize) -> String {
    if place == output.len() {
        return "the end".to_string();
    }
    let feed = |&byte: &u8| byte == b'\n';
    let start = output[..place].iter().rposition(feed).map_or(0, |f| f + 1);
    let rest = &output[place..];
    let length = rest.iter().position(feed).map_or(rest.len(), |f| f + 1);
    let from = start.max(place.saturating_sub(SHOWN));
    let to = place + length.min(SHOWN);
    format!("\"{}\"", output[from..to].escape_ascii())
}

impl fmt::Display for Difference {
    fn fmt(&self, f: &mut fmt::Formatter) -> fmt::Result {
        let Difference {
            byte,
            line,
            expected,
            got,
        } = self;
        write!(
            f,
            "differs at byte {byte}, line {line}: expected {expected}, got {got}"
        )
    }
}
