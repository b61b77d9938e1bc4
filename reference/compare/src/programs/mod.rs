//! Comparison of programs under test with the separate reader, byte for byte.

pub mod case;
pub mod delivery;
pub mod difference;
pub mod disk;
pub mod ended;
pub mod errors;
pub mod expected;
pub mod fault;
pub mod faults;
pub mod live;
pub mod pool;
pub mod running;
pub mod scratch;
pub mod sent;
pub mod situation;
pub mod situations;
pub mod started;
pub mod under_test;

use crate::golden;
use crate::tally::Tally;
use cases::{composed, crowded, fixed, generated, hits, noisy, pulsed, replied, Case};
use scratch::Scratch;
use situations::Means;
use std::io;
use std::path::Path;
use under_test::UnderTest;

/// Generated streams, ones with noisy front-end groups, ones with commands
/// crowded together, ones with several hits, ones of pulse programs, texts of
/// orders and replies, besides all other cases.
const GENERATED: u64 = 450;
const NOISY: u64 = 100;
const CROWDED: u64 = 100;
const HITS: u64 = 100;
const PULSED: u64 = 210;
const COMPOSED: u64 = 330;
const REPLIED: u64 = 240;

/// Compares everything: the repository's golden files and stored runs with
/// what the separate reader prints now, and the programs in a folder with it on every case. They have an exit
/// status, or are to end with 0 in every case.
pub fn compare(programs: &Path, has_status: bool, repository: &Path) -> io::Result<Tally> {
    let mut under_test = UnderTest::new(&programs.canonicalize()?, has_status);
    under_test.by_library = true;
    let scratch = Scratch::new()?;
    let cases = [
        fixed(),
        generated(GENERATED),
        noisy(NOISY),
        crowded(CROWDED),
        hits(HITS),
        pulsed(PULSED),
        composed(COMPOSED),
        replied(REPLIED),
    ]
    .concat();

    let mut tally = Tally::default();
    let means = Means::prepare(&scratch)?;
    if let Err(missing) = scratch.faults() {
        tally.note(missing);
    }
    if !means.disk {
        tally.note("no small file system can be mounted: a full disk is NOT compared");
    }
    let golden_files = repository.join("tests/golden");
    tally.add(golden::check(&golden_files, &cases::golden()));
    tally.add(golden::stored::check(&repository.join("crates")));
    for checks in pool::each(&live::cases(), |live| live::check(&under_test, live)) {
        tally.add(checks);
    }
    let situations = situations::situations(means);
    for checks in pool::each(&situations, |s| started::check(&under_test, s, &scratch)) {
        tally.add(checks);
    }
    for checks in pool::each(&cases, |case| case::check(&under_test, case, &scratch)) {
        tally.add(checks);
    }
    let texts: Vec<Case> = cases.into_iter().filter(Case::holds_orders).collect();
    for checks in pool::each(&texts, |text| sent::check(&under_test, text, &scratch)) {
        tally.add(checks);
    }
    Ok(tally)
}
