//! Comparison with the separate reader, byte for byte: of programs, of a
//! library through its C interface, and of the golden files. It depends on
//! `reader` and `cases`; what is compared is run as a program, never linked.

#![forbid(unsafe_code)]

pub mod golden;
pub mod interface;
pub mod printed;
pub mod programs;
pub mod tally;
pub mod words;
