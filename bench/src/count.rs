//! An allocator that counts: how many allocations were made, and how many bytes are held.
use std::alloc::{GlobalAlloc, Layout, System};
use std::sync::atomic::{AtomicUsize, Ordering::Relaxed};

pub struct Counting;

static CALLS: AtomicUsize = AtomicUsize::new(0);
static BYTES: AtomicUsize = AtomicUsize::new(0);

// SAFETY: every call goes to the system's allocator unchanged; the counters are beside it.
unsafe impl GlobalAlloc for Counting {
    unsafe fn alloc(&self, layout: Layout) -> *mut u8 {
        CALLS.fetch_add(1, Relaxed);
        BYTES.fetch_add(layout.size(), Relaxed);
        System.alloc(layout)
    }

    unsafe fn dealloc(&self, at: *mut u8, layout: Layout) {
        BYTES.fetch_sub(layout.size(), Relaxed);
        System.dealloc(at, layout)
    }
}

#[derive(Clone, Copy)]
pub struct Counts {
    pub calls: usize,
    pub bytes: usize,
}

impl Counts {
    pub fn since(self, before: Counts) -> Counts {
        Counts { calls: self.calls - before.calls, bytes: self.bytes - before.bytes }
    }
}

pub fn now() -> Counts {
    Counts { calls: CALLS.load(Relaxed), bytes: BYTES.load(Relaxed) }
}
