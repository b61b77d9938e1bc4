//! The cases that are written down one by one, by subject.

mod accept;
mod capture;
mod commands;
mod compose;
mod controller;
mod crowded;
mod flips;
mod frames;
mod hits;
mod lines;
mod paper;
mod reply;
mod votes;

pub use paper::RECEIVED;

use crate::{Case, Stream};

/// All cases but the generated ones.
pub fn fixed() -> Vec<Case> {
    let mut cases = paper::cases();
    cases.extend(lines::cases());
    cases.extend(frames::cases());
    cases.extend(commands::cases());
    cases.extend(flips::cases());
    cases.extend(controller::cases());
    cases.extend(capture::cases());
    cases.extend(votes::cases());
    cases.extend(crowded::cases());
    cases.extend(hits::cases());
    cases.extend(accept::cases());
    cases.extend(compose::cases());
    cases.extend(reply::cases());
    cases
}

/// A stream ahead of which RunMode is on or off.
fn in_run_mode(run_mode: bool) -> Stream {
    if run_mode {
        Stream::new().en_data_take()
    } else {
        Stream::new()
    }
}

/// What a name says of RunMode.
fn run_mode_name(run_mode: bool) -> &'static str {
    if run_mode {
        "run"
    } else {
        "idle"
    }
}
