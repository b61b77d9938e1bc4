//! Comparison of a library with the separate reader through its C interface.
//!
//! A driver program makes the calls: it is linked with the library and lends
//! each slice in a block of its own. Every answer and every buffer, written
//! or not, is compared whole with what the separate reader gives.

pub mod accepting;
pub mod call;
pub mod checker;
pub mod composing;
pub mod crowding;
pub mod cut;
pub mod difference;
pub mod edges;
pub mod expected;
pub mod fit;
pub mod flips;
pub mod frames;
pub mod hits;
pub mod image;
pub mod large;
pub mod layout;
pub mod lines;
pub mod malformed;
pub mod opening;
pub mod precedence;
pub mod prefilled;
pub mod registers;
pub mod replies;
pub mod soundness;
pub mod states;
pub mod streams;
pub mod votes;

use crate::tally::Tally;
use std::io;
use std::path::Path;

/// Runs all cases through a driver and counts what passed.
pub fn compare(driver: &Path, tally: &mut Tally) -> io::Result<()> {
    checker::run(driver, tally, |checker| {
        opening::check(checker)?;
        registers::check(checker)?;
        lines::check(checker)?;
        frames::check(checker)?;
        edges::check(checker)?;
        soundness::check(checker)?;
        malformed::check(checker)?;
        precedence::check(checker)?;
        flips::check(checker)?;
        votes::check(checker)?;
        crowding::check(checker)?;
        hits::check(checker)?;
        streams::check(checker)?;
        large::check(checker)?;
        accepting::check(checker)?;
        composing::check(checker)?;
        replies::check(checker)
    })
}
