//! Hexadecimal lines of the line back in: what they hold of a reply out
//! (document 02, F-12).

#![no_main]

mod system;

#[no_mangle]
extern "C" fn main() -> std::ffi::c_int {
    system::main(reader::Program::Reply)
}
