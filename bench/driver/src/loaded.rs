//! Shared libraries that are opened while the driver runs.

use std::ffi::{c_char, c_int, c_void, CString};

extern "C" {
    fn dlopen(name: *const c_char, flags: c_int) -> *mut c_void;
    fn dlsym(library: *mut c_void, name: *const c_char) -> *mut c_void;
}

const RTLD_NOW: c_int = 2;

/// An open library. It is never closed, because there are few.
#[derive(Clone, Copy)]
pub struct Loaded {
    library: *mut c_void,
}

impl Loaded {
    /// Opens the library of this name or path, if it exists.
    pub fn open(name: &str) -> Option<Loaded> {
        let name = CString::new(name).ok()?;
        let library = unsafe { dlopen(name.as_ptr(), RTLD_NOW) };
        (!library.is_null()).then_some(Loaded { library })
    }

    /// Returns the address of its function of this name, if it has one.
    pub fn find(self, name: &str) -> Option<*mut c_void> {
        let name = CString::new(name).ok()?;
        let found = unsafe { dlsym(self.library, name.as_ptr()) };
        (!found.is_null()).then_some(found)
    }
}
