//! Hexadecimal lines in, one stream: whether it is accepted, and if not, a line
//! for the first pattern at fault (document 02, F-8).

#![no_main]

mod system;

#[no_mangle]
extern "C" fn main() -> std::ffi::c_int {
    system::main(reader::Program::Accept)
}
