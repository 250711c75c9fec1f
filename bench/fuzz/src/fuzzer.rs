//! The entry of libFuzzer.
#![no_main]

use fuzz::Bench;
use std::cell::RefCell;

thread_local! {
    static BENCH: RefCell<Bench> = RefCell::new(Bench::new());
}

/// Tries an input. An abort is a finding for libFuzzer.
///
/// # Safety
///
/// `input` must point to `length` bytes.
#[no_mangle]
pub unsafe extern "C" fn LLVMFuzzerTestOneInput(input: *const u8, length: usize) -> i32 {
    let input = if length == 0 { &[] } else { std::slice::from_raw_parts(input, length) };
    BENCH.with_borrow_mut(|bench| {
        if let Err(error) = bench.tries(input) {
            eprintln!("{error}");
            std::process::abort();
        }
    });
    0
}
