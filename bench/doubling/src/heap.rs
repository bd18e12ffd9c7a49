//! A heap on which no count depends on what was freed before.
use std::alloc::{GlobalAlloc, Layout, System};
use std::ptr::{copy_nonoverlapping, null_mut};
use std::sync::atomic::{AtomicUsize, Ordering};

/// How many bytes are had at most, of which the system gives those that are used.
const ROOM: usize = 1 << 30;

/// Gives one block after another, and takes none back but by `go_back`.
pub struct Heap {
    begin: AtomicUsize,
    used: AtomicUsize,
}

impl Heap {
    pub const fn new() -> Heap {
        Heap { begin: AtomicUsize::new(0), used: AtomicUsize::new(0) }
    }

    /// How much is used.
    pub fn used(&self) -> usize {
        self.used.load(Ordering::Relaxed)
    }

    /// Takes back all that was given since so much was used, of which nothing may be used any more.
    pub fn go_back(&self, used: usize) {
        self.used.store(used, Ordering::Relaxed);
    }
}

unsafe impl GlobalAlloc for Heap {
    unsafe fn alloc(&self, layout: Layout) -> *mut u8 {
        if self.begin.load(Ordering::Relaxed) == 0 {
            let block = unsafe { System.alloc(Layout::from_size_align_unchecked(ROOM, 64)) };
            self.begin.store(block as usize, Ordering::Relaxed);
        }
        let at = self.used().next_multiple_of(layout.align());
        let end = at + layout.size();
        if end > ROOM {
            return null_mut();
        }
        self.used.store(end, Ordering::Relaxed);
        (self.begin.load(Ordering::Relaxed) + at) as *mut u8
    }

    unsafe fn dealloc(&self, _: *mut u8, _: Layout) {}

    unsafe fn realloc(&self, old: *mut u8, layout: Layout, size: usize) -> *mut u8 {
        if size <= layout.size() {
            return old;
        }
        unsafe {
            let new = self.alloc(Layout::from_size_align_unchecked(size, layout.align()));
            if !new.is_null() {
                copy_nonoverlapping(old, new, layout.size());
            }
            new
        }
    }
}
