//! Hexadecimal lines in, a listing out: the records only.

#![no_main]

mod system;

#[no_mangle]
extern "C" fn main() -> std::ffi::c_int {
    system::main(reader::Program::Reading)
}
