//! The timing table ("The damage table"), and which records come too close
//! (document 02, F-5).

use crate::recogniser;
use crate::record::{kind, Record};
use crate::slow;

/// The kinds of the records after which the table asks for zeros.
const BCR: u8 = kind::FAST + recogniser::BCR;
const ECR: u8 = kind::FAST + recogniser::ECR;
const SYNC: u8 = kind::FAST + recogniser::SYNC;

/// What a state remembers of the last record.
#[derive(Clone, Copy, Debug, Default, PartialEq, Eq)]
pub struct Earlier {
    /// The cycle of its last bit. It means nothing where there is no record.
    pub time: u64,
    /// 0, which no record has, while there is none.
    pub kind: u8,
}

impl Earlier {
    /// As after an opening.
    pub const NONE: Earlier = Earlier { time: 0, kind: 0 };

    pub fn of(record: &Record) -> Earlier {
        Earlier {
            time: record.time,
            kind: record.kind,
        }
    }

    /// Whether there was a record at all.
    pub fn is_some(self) -> bool {
        self.kind != Earlier::NONE.kind
    }

    /// Whether fewer zeros than the timing table asks lie between this record
    /// and one of that kind, whose last bit has cycle `time`. Sums only, as
    /// the first bit of a sound state's command may lie ahead of cycle 0.
    pub fn is_too_close(self, kind: u8, time: u64, cnt: u16) -> bool {
        self.is_some() && time < self.time + bits(kind, cnt) + zeros_asked(self.kind, kind)
    }
}

/// The zeros that the timing table asks between two commands, by the kinds of
/// their records. Whatever is no LV1 counts as a Fast when it follows; only
/// BCR, ECR and SYNC ask for any after themselves, acted on or not.
pub fn zeros_asked(earlier: u8, kind: u8) -> u64 {
    let is_lv1 = kind == kind::LV1;
    match earlier {
        BCR if !is_lv1 => 2,
        ECR if !is_lv1 => 1,
        SYNC if is_lv1 => 4,
        _ => 0,
    }
}

/// The bits of a command from its first to its last, by the kind of its
/// record; the variable ones by the present CNT. A bad Slow has no Field 5.
pub fn bits(kind: u8, cnt: u16) -> u64 {
    match kind {
        kind::LV1 => 5,
        kind::SLOW..=kind::BAD_SLOW => {
            let field5 = slow::field5_cycles(kind - kind::SLOW, cnt);
            17 + u64::from(field5.unwrap_or(0))
        }
        _ => 9,
    }
}
