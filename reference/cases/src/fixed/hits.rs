//! More than one hit (document 02, F-13): a day's run, with hits of every row
//! of the damage table, and a stream in which every bit is hit in turn; both
//! clean and hit, so that the listings can be compared. Last of all hits with
//! no unaffected command between.

use super::{in_run_mode, run_mode_name};
use crate::spaced::Inverted::{self, Ahead, Bit, Nowhere};
use crate::spaced::Sent::{self, Lv1};
use crate::spaced::{Spaced, ALL, BCR, CAL, ECR, SYNC};
use crate::{Case, Stream};

pub fn cases() -> Vec<Case> {
    let day = clean_and_hit("day", "", true, &day()).into_iter();
    let mut cases: Vec<Case> = day.map(|case| case.golden_if(true)).collect();
    for run_mode in [true, false] {
        let mode = format!("-{}", run_mode_name(run_mode));
        cases.extend(clean_and_hit("every-bit", &mode, run_mode, &every_bit()));
    }
    cases.push(Case::stream("hits/tight", &tight()).golden_if(true));
    cases
}

/// The stream as it was sent and as it was received.
fn clean_and_hit(name: &str, mode: &str, run_mode: bool, spaced: &Spaced) -> Vec<Case> {
    let case = |what: &str, stream: &Stream| {
        let stream = in_run_mode(run_mode).raw(&stream.bits);
        Case::stream(format!("hits/{name}-{what}{mode}"), &stream)
    };
    vec![case("clean", &spaced.clean), case("hit", &spaced.damaged())]
}

/// Zeros, a command, and the bit of both that is hit. Resets lie between, from
/// which on a counter agrees again; those that are hit are none.
const DAY: [(usize, Sent, Inverted); 73] = [
    (20, BCR, Nowhere),
    (2, ECR, Nowhere),
    (40, Lv1, Nowhere),
    // LV1, any bit.
    (30, Lv1, Bit(1)),
    (25, Lv1, Nowhere),
    (0, Lv1, Bit(2)),
    (60, CAL, Nowhere),
    (90, Lv1, Bit(3)),
    (7, Lv1, Nowhere),
    (31, Lv1, Bit(4)),
    (12, SYNC, Nowhere),
    (4, Lv1, Bit(5)),
    (0, Lv1, Nowhere),
    // Fast, bit 1.
    (9, CAL, Bit(1)),
    (30, Lv1, Nowhere),
    (3, SYNC, Bit(1)),
    (33, Lv1, Nowhere),
    (6, ECR, Nowhere),
    (14, Lv1, Nowhere),
    (8, BCR, Bit(1)),
    (0, Lv1, Nowhere),
    (5, ECR, Bit(1)),
    (0, Lv1, Nowhere),
    (40, BCR, Nowhere),
    (50, Lv1, Nowhere),
    (20, ECR, Nowhere),
    (10, Lv1, Nowhere),
    // Bit 2.
    (1, BCR, Bit(2)),
    (0, Lv1, Nowhere),
    (0, ECR, Bit(2)),
    (0, Lv1, Nowhere),
    (0, CAL, Bit(2)),
    (0, Lv1, Nowhere),
    (0, SYNC, Bit(2)),
    (4, Lv1, Nowhere),
    // Bits 3 and 4.
    (22, SYNC, Bit(3)),
    (0, CAL, Nowhere),
    (0, BCR, Bit(4)),
    (2, ECR, Nowhere),
    (1, CAL, Bit(3)),
    (0, BCR, Nowhere),
    (2, ECR, Bit(4)),
    (11, Lv1, Nowhere),
    // Bit 5.
    (35, BCR, Bit(5)),
    (0, Lv1, Nowhere),
    (3, ECR, Bit(5)),
    (4, Lv1, Nowhere),
    (5, CAL, Bit(5)),
    (6, Lv1, Nowhere),
    (7, SYNC, Bit(5)),
    (0, ECR, Nowhere),
    (1, BCR, Nowhere),
    (80, Lv1, Nowhere),
    // Bits 6 to 9.
    (8, BCR, Bit(6)),
    (15, Lv1, Nowhere),
    (0, ECR, Bit(9)),
    (15, Lv1, Nowhere),
    (0, CAL, Bit(7)),
    (15, Lv1, Nowhere),
    (0, SYNC, Bit(8)),
    (15, BCR, Nowhere),
    // A zero ahead of a Fast, and zeros that affect nothing.
    (30, CAL, Ahead(1)),
    (0, Lv1, Nowhere),
    (5, BCR, Ahead(2)),
    (9, Lv1, Nowhere),
    (2, SYNC, Ahead(2)),
    (4, Lv1, Nowhere),
    (1, ECR, Ahead(1)),
    (1, SYNC, Nowhere),
    (4, Lv1, Ahead(1)),
    (6, ECR, Ahead(3)),
    (1, BCR, Ahead(1)),
    (60, Lv1, Nowhere),
];

fn day() -> Spaced {
    let items = DAY.into_iter();
    let day = items.fold(Spaced::new(), |day, (zeros, command, inverted)| {
        day.item(zeros, command, inverted)
    });
    day.end(12, Some(5))
}

/// Each bit of each command and each of the zeros ahead of it, hit after each
/// unaffected command, with the zeros that the timing table asks and more.
fn every_bit() -> Spaced {
    let mut spaced = Spaced::new();
    for more in [0, 3] {
        for command in ALL {
            let bits = (1..=command.bits()).map(Bit);
            for inverted in bits.chain((1..=more).map(Ahead)) {
                for between in ALL {
                    let zeros = spaced.zeros_asked(between);
                    spaced = spaced.item(zeros, between, Nowhere);
                    let zeros = spaced.zeros_asked(command) + more;
                    spaced = spaced.item(zeros, command, inverted);
                }
            }
        }
    }
    spaced
}

/// Two hits with no unaffected command between: of one LV1; of a BCR and the
/// LV1 next to it; and of a BCR and the zero between the two. Each also alone.
fn tight() -> Stream {
    let lv1 = Spaced::new().item(0, Lv1, Nowhere);
    let next_to = Spaced::new().item(0, BCR, Nowhere).item(0, Lv1, Nowhere);
    let with_zero = Spaced::new().item(0, BCR, Nowhere).item(1, Lv1, Nowhere);
    let examples = [(lv1, [0, 1]), (next_to, [0, 9]), (with_zero, [0, 9])];
    let mut stream = in_run_mode(true);
    for (spaced, [one, other]) in examples {
        for hits in [&[one][..], &[other], &[one, other]] {
            let mut hit = spaced.clean.clone();
            for &place in hits {
                hit.bits[place] = !hit.bits[place];
            }
            // A body may have begun, which these zeros end.
            stream = stream.zeros(12).raw(&hit.bits).zeros(12).ecr();
        }
    }
    stream
}
