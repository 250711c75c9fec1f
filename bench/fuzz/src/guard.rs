//! Memory between two pages that nothing may touch: an access outside a slice ends the process.

use std::alloc::{GlobalAlloc, Layout, System};
use std::ffi::c_void;
use std::ptr;
use std::sync::atomic::{AtomicU8, AtomicUsize, Ordering};

const PAGE: usize = 4096;

/// The part of the address space that is kept for guarded memory. No address is used twice.
const SPACE: usize = 1 << 38;

const NO_ACCESS: i32 = 0;
const READ_AND_WRITE: i32 = 3;
/// Private, of no file, and not counted until it is used.
const ONLY_ADDRESSES: i32 = 0x2 | 0x20 | 0x4000;
const NOT_NEEDED: i32 = 4;

extern "C" {
    fn mmap(at: *mut c_void, length: usize, protection: i32, flags: i32, file: i32, offset: i64) -> *mut c_void;
    fn mprotect(at: *mut c_void, length: usize, protection: i32) -> i32;
    fn madvise(at: *mut c_void, length: usize, advice: i32) -> i32;
}

/// The side of a slice that is at a page that nothing may touch.
#[derive(Clone, Copy, Debug, PartialEq, Eq)]
pub enum Side {
    End,
    Start,
}

/// The space's first address, and the number of bytes that are taken.
static FIRST: AtomicUsize = AtomicUsize::new(0);
static TAKEN: AtomicUsize = AtomicUsize::new(0);

/// The guarded side of each allocation, or 0 for none.
static GUARDED: AtomicU8 = AtomicU8::new(0);

/// Returns the first address of the space.
fn first() -> usize {
    let known = FIRST.load(Ordering::Relaxed);
    if known != 0 {
        return known;
    }
    let space = unsafe { mmap(ptr::null_mut(), SPACE, NO_ACCESS, ONLY_ADDRESSES, -1, 0) } as usize;
    assert!(space != usize::MAX, "no addresses");
    FIRST.store(space, Ordering::Relaxed);
    space
}

/// Returns pages for these bytes, between two that nothing may touch, or `None` if no addresses are left.
fn pages(bytes: usize) -> Option<usize> {
    let length = bytes.div_ceil(PAGE).max(1) * PAGE;
    let place = TAKEN.fetch_add(length + PAGE, Ordering::Relaxed);
    if place + length + 2 * PAGE > SPACE {
        return None;
    }
    let start = first() + place + PAGE;
    let failed = unsafe { mprotect(start as *mut c_void, length, READ_AND_WRITE) } != 0;
    (!failed).then_some(start)
}

/// Returns the address of these bytes in pages from an address on.
fn address(start: usize, bytes: usize, side: Side) -> usize {
    match side {
        Side::Start => start,
        Side::End => start + bytes.div_ceil(PAGE).max(1) * PAGE - bytes,
    }
}

/// The machine's allocator, and guarded memory while `with_guards` runs.
pub struct Guards;

unsafe impl GlobalAlloc for Guards {
    unsafe fn alloc(&self, layout: Layout) -> *mut u8 {
        let side = match GUARDED.load(Ordering::Relaxed) {
            1 => Side::End,
            2 => Side::Start,
            _ => return System.alloc(layout),
        };
        let bytes = layout.size().next_multiple_of(layout.align());
        match pages(bytes) {
            Some(start) => address(start, bytes, side) as *mut u8,
            None => System.alloc(layout),
        }
    }

    unsafe fn dealloc(&self, at: *mut u8, layout: Layout) {
        let start = at as usize & !(PAGE - 1);
        let known = FIRST.load(Ordering::Relaxed);
        if known == 0 || !(known..known + SPACE).contains(&start) {
            return System.dealloc(at, layout);
        }
        let length = (at as usize + layout.size() - start).next_multiple_of(PAGE);
        madvise(start as *mut c_void, length, NOT_NEEDED);
        mprotect(start as *mut c_void, length, NO_ACCESS);
    }
}

/// Returns the function's result. Its allocations are guarded.
pub fn with_guards<T>(side: Side, function: impl FnOnce() -> T) -> T {
    let before = GUARDED.swap(if side == Side::End { 1 } else { 2 }, Ordering::Relaxed);
    let made = function();
    GUARDED.store(before, Ordering::Relaxed);
    made
}

/// Guarded memory that is used again and again.
pub struct Room {
    start: usize,
    length: usize,
}

impl Room {
    /// Returns room for these bytes.
    pub fn new(bytes: usize) -> Room {
        let length = bytes.next_multiple_of(PAGE);
        Room { start: pages(length).expect("addresses are left"), length }
    }

    /// Returns the slice of `count` items with its old contents, one side of which is at a page that nothing may touch.
    pub fn written<T: Copy>(&mut self, count: usize, side: Side) -> &mut [T] {
        let bytes = count * size_of::<T>();
        assert!(bytes <= self.length, "the room is too small");
        let at = match side {
            Side::Start => self.start,
            Side::End => self.start + self.length - bytes,
        };
        unsafe { std::slice::from_raw_parts_mut(at as *mut T, count) }
    }

    /// Returns the same slice with blank items.
    pub fn slice<T: Copy>(&mut self, count: usize, blank: T, side: Side) -> &mut [T] {
        let slice = self.written(count, side);
        slice.fill(blank);
        slice
    }

    /// Returns a copy of the items, one side of which is at a page that nothing may touch.
    pub fn copy<T: Copy + Default>(&mut self, items: &[T], side: Side) -> &[T] {
        let slice = self.written(items.len(), side);
        slice.copy_from_slice(items);
        slice
    }
}
