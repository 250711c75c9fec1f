//! The program `legacy_encode` in plain Rust. Rust's own start would open streams that are closed.
#![no_main]

#[no_mangle]
extern "C" fn main() -> i32 {
    programs::status(programs::encode)
}
