//! An allocator that refuses, and counts. The tests and benches of `rust/forgeni` include this
//! file, and take their memory from it. It is the only file with `unsafe` code: Rust's trait of
//! allocators requires it.
//!
//! Each thread says for itself what is refused, so a test doesn't affect others that run beside it.

// A program that includes it may use only a part of it.
#![allow(dead_code)]

use std::alloc::{GlobalAlloc, Layout, System};
use std::cell::Cell;

/// Which allocations of a thread are refused.
#[derive(Clone, Copy)]
pub enum Refusal {
    /// Nothing.
    None,
    /// One request, after so many more.
    One { after: usize },
    /// All requests, after so many more.
    All { after: usize },
    /// Each request while so many more blocks are there than at the beginning.
    Above { blocks: isize },
}

thread_local! {
    static REFUSAL: Cell<Refusal> = const { Cell::new(Refusal::None) };
    static REFUSED: Cell<usize> = const { Cell::new(0) };
    static BLOCKS: Cell<isize> = const { Cell::new(0) };
    static BYTES: Cell<isize> = const { Cell::new(0) };
    static MOST: Cell<isize> = const { Cell::new(0) };
    static ASKED: Cell<usize> = const { Cell::new(0) };
}

/// Does this while allocations are refused like this. Also returns how many were refused.
pub fn refusing<T>(refusal: Refusal, work: impl FnOnce() -> T) -> (T, usize) {
    REFUSED.set(0);
    BLOCKS.set(0);
    let reset = Reset(REFUSAL.replace(refusal));
    let done = work();
    drop(reset);
    (done, REFUSED.get())
}

/// Does this, and returns how many bytes more this thread has after it than before.
pub fn held<T>(work: impl FnOnce() -> T) -> (T, isize) {
    let before = BYTES.get();
    let done = work();
    (done, BYTES.get() - before)
}

/// Does this, and returns how many bytes more this thread had at some time meanwhile than before,
/// at the most.
pub fn most_held<T>(work: impl FnOnce() -> T) -> (T, isize) {
    let before = BYTES.get();
    MOST.set(before);
    let done = work();
    (done, MOST.get() - before)
}

/// Does this, and returns how many bytes this thread asked for meanwhile, whether it gave them back
/// or not. A block that grows counts again, with its whole new size.
pub fn asked<T>(work: impl FnOnce() -> T) -> (T, usize) {
    let before = ASKED.get();
    let done = work();
    (done, ASKED.get() - before)
}

/// Counts a block that has `more` bytes more than before, for which `asked` bytes were asked for.
fn count(more: isize, asked: usize) {
    BYTES.set(BYTES.get() + more);
    MOST.set(MOST.get().max(BYTES.get()));
    ASKED.set(ASKED.get() + asked);
}

/// Sets the refusal back, also if the work panics.
struct Reset(Refusal);

impl Drop for Reset {
    fn drop(&mut self) {
        REFUSAL.set(self.0);
    }
}

/// Whether the next request is refused.
fn is_refused() -> bool {
    let (refused, left) = match REFUSAL.get() {
        Refusal::None => (false, Refusal::None),
        Refusal::One { after: 0 } => (true, Refusal::None),
        Refusal::One { after } => (false, Refusal::One { after: after - 1 }),
        Refusal::All { after: 0 } => (true, Refusal::All { after: 0 }),
        Refusal::All { after } => (false, Refusal::All { after: after - 1 }),
        above @ Refusal::Above { blocks } => (BLOCKS.get() >= blocks, above),
    };
    REFUSAL.set(left);
    if refused {
        REFUSED.set(REFUSED.get() + 1);
    }
    refused
}

/// Rust's allocator, but for what is refused.
pub struct Refusing;

// SAFETY: each call is handed on to the allocator of the system, or is refused, which is its right.
unsafe impl GlobalAlloc for Refusing {
    unsafe fn alloc(&self, layout: Layout) -> *mut u8 {
        if is_refused() {
            return std::ptr::null_mut();
        }
        BLOCKS.set(BLOCKS.get() + 1);
        count(layout.size() as isize, layout.size());
        // SAFETY: as the caller of this.
        unsafe { System.alloc(layout) }
    }

    unsafe fn dealloc(&self, block: *mut u8, layout: Layout) {
        BLOCKS.set(BLOCKS.get() - 1);
        count(-(layout.size() as isize), 0);
        // SAFETY: as the caller of this.
        unsafe { System.dealloc(block, layout) }
    }

    unsafe fn realloc(&self, block: *mut u8, layout: Layout, size: usize) -> *mut u8 {
        if is_refused() {
            return std::ptr::null_mut();
        }
        // The old block may be there until the new one is filled.
        count(size as isize, size);
        count(-(layout.size() as isize), 0);
        // SAFETY: as the caller of this.
        unsafe { System.realloc(block, layout, size) }
    }
}

#[global_allocator]
static REFUSING: Refusing = Refusing;
