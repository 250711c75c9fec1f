#![doc = include_str!("../README.md")]
#![no_std]
#![deny(unsafe_code)]
#![warn(missing_docs)]
// The source's contracts name more than its code, and other crates of the tree call functions that nothing calls here.
#![allow(dead_code, unused_imports, private_bounds)]
// A provided method has parameters that only implementations read.
#![allow(unused_variables)]

// Forms of the source that its proofs follow.
#![allow(clippy::assign_op_pattern, clippy::int_plus_one, clippy::len_zero, clippy::manual_contains, clippy::manual_div_ceil)]
#![allow(clippy::manual_find, clippy::manual_range_contains, clippy::needless_lifetimes, clippy::needless_range_loop)]
#![allow(clippy::question_mark)]
// A crate of the source is a module here, coders are large, and no coder is a default.
#![allow(clippy::large_enum_variant, clippy::module_inception, clippy::new_without_default, clippy::result_large_err)]

extern crate alloc;
#[cfg(feature = "std")]
extern crate std;

mod kit;
// MODULES

// USES
pub use kit::memory::{AllocError, AllocFailed};

/// The types of which coders are aliases: their methods are those of the aliases.
pub mod generic {
    // TYPES
}
