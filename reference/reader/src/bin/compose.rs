//! Orders in, hexadecimal lines of the stream that sends them out (document
//! 02, F-2).

#![no_main]

mod system;

#[no_mangle]
extern "C" fn main() -> std::ffi::c_int {
    system::main(reader::Program::Compose)
}
