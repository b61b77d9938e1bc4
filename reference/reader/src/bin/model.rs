//! Hexadecimal lines in, a listing out: the records, then the state of the controller.

#![no_main]

mod system;

#[no_mangle]
extern "C" fn main() -> std::ffi::c_int {
    system::main(reader::Program::Model)
}
