//! What the tests take from the kit's host: it ends a test that fails, and has memory.

#[path = "../../src/kit/memory.rs"]
#[allow(dead_code)]
pub mod memory;

use memory::AllocError;
use std::fmt::Display;

/// A host that ends a test.
pub trait Abort {}

/// A host that has memory.
pub trait AllocGlobal {}

/// The host of a test.
pub struct HostRuntime;

impl Abort for HostRuntime {}

impl AllocGlobal for HostRuntime {}

/// Text whose memory may be refused.
pub trait Shown {
    /// Returns the value's text.
    fn try_to_string(&self) -> Result<String, AllocError>;
}

impl<T: Display + ?Sized> Shown for T {
    fn try_to_string(&self) -> Result<String, AllocError> {
        Ok(self.to_string())
    }
}
