//! What the language of the tree has in its library, in stable Rust.

pub mod memory;
#[cfg(target_arch = "x86_64")]
mod processor;
pub mod simd;

#[cfg(target_arch = "x86_64")]
pub use processor::with_shuffles;

/// Does something. Only x86-64 has code for two kinds of processors.
#[cfg(not(target_arch = "x86_64"))]
#[inline(always)]
pub fn with_shuffles<R>(act: impl FnOnce() -> R) -> R {
    act()
}

/// Returns the scalar value of a number, which must be one.
///
/// # Panics
///
/// Panics if the number is no scalar value.
#[inline(always)]
pub fn scalar(number: u32) -> char {
    match char::from_u32(number) {
        Some(scalar) => scalar,
        None => no_scalar(number),
    }
}

#[cold]
#[inline(never)]
fn no_scalar(number: u32) -> ! {
    panic!("{number:#X} is no scalar value")
}
