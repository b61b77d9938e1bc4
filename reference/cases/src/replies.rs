//! Replies as they come over the line back (document 02, F-12): a line at rest
//! ahead, noisy cycles, anything behind; and the same with a flaw.

use crate::generate::{bits, noisy_groups, Noise};
use crate::{code, Random, Stream};

/// What is wrong with a reply.
#[derive(Clone, Copy, Debug, PartialEq, Eq)]
pub enum ReplyFlaw {
    Nothing,
    /// A bit of its header is inverted.
    Header,
    /// A header stands ahead of it, which is taken for its own.
    Early,
    /// It ends anywhere.
    Cut,
}

impl ReplyFlaw {
    pub const ALL: [ReplyFlaw; 4] = [
        ReplyFlaw::Nothing,
        ReplyFlaw::Header,
        ReplyFlaw::Early,
        ReplyFlaw::Cut,
    ];
}

const NOISES: [Noise; 4] = [Noise::Late, Noise::Any, Noise::Cycles(20), Noise::Cycles(4)];

/// A reply of so many bits with this flaw.
pub fn random_reply(flaw: ReplyFlaw, count: u32, random: &mut Random) -> Stream {
    let at_rest = vec![random.bit(); random.below(70) as usize];
    let mut stream = Stream::new().raw(&at_rest);
    if flaw == ReplyFlaw::Early {
        let zeros = random.below(20) as usize;
        stream = stream.pattern(code::REPLY_HEADER).zeros(zeros);
    }
    let header = stream.bits.len();
    let noise = NOISES[random.below(NOISES.len() as u64) as usize];
    stream = stream.reply_groups(&noisy_groups(noise, random, count));
    let behind = random.below(40) as u32;
    stream = stream.raw(&bits(random, behind));
    match flaw {
        ReplyFlaw::Nothing | ReplyFlaw::Early => {}
        ReplyFlaw::Header => {
            let place = header + random.below(5) as usize;
            stream.bits[place] = !stream.bits[place];
        }
        ReplyFlaw::Cut => {
            let length = random.below(stream.bits.len() as u64) as usize;
            stream.bits.truncate(length);
        }
    }
    stream
}

/// Lines of so many characters in all, whose bits hold no header: 11010110
/// over and over.
pub fn no_header(characters: usize) -> String {
    let full = "D6".repeat(32) + "\n";
    let rest = characters % full.len();
    // A line has an even count of digits, so an empty one may follow.
    let bytes = rest.saturating_sub(1) / 2;
    let line = "D6".repeat(bytes) + &"\n".repeat(rest - 2 * bytes);
    full.repeat(characters / full.len()) + &line
}
