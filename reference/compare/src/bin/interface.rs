//! Compares a library with the separate reader through its C interface:
//! `interface DRIVER [DRIVER...]`, each a build of the driver with it.
//!
//! Its last line is `N passed, M failed`; it fails if any check did.

#![forbid(unsafe_code)]

use compare::interface::compare;
use compare::tally::Tally;
use std::path::Path;
use std::process::ExitCode;

fn main() -> ExitCode {
    let drivers: Vec<String> = std::env::args().skip(1).collect();
    if drivers.is_empty() {
        eprintln!("interface DRIVER [DRIVER...]");
        return ExitCode::FAILURE;
    }
    let mut tally = Tally::default();
    for driver in &drivers {
        if let Err(error) = compare(Path::new(driver), &mut tally) {
            eprintln!("interface: {driver}: {error}");
            return ExitCode::FAILURE;
        }
    }
    println!("{tally}");
    if tally.all_passed() {
        ExitCode::SUCCESS
    } else {
        ExitCode::FAILURE
    }
}
