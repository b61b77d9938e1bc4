//! Hexadecimal lines in, a listing out: every record and every frame.

#![no_main]

mod system;

#[no_mangle]
extern "C" fn main() -> std::ffi::c_int {
    system::main(reader::Program::Station)
}
