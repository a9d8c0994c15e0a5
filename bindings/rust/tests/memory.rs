//! An allocation that fails, when a list is written.

use nlroute::{Bond, Code, List};
use std::alloc::{GlobalAlloc, Layout, System};
use std::sync::atomic::{AtomicUsize, Ordering};

/// The least size of an allocation that fails.
static LIMIT: AtomicUsize = AtomicUsize::new(usize::MAX);

struct Limited;

// SAFETY: all calls are those of the system's allocator, except that some fail.
unsafe impl GlobalAlloc for Limited {
    unsafe fn alloc(&self, layout: Layout) -> *mut u8 {
        if layout.size() >= LIMIT.load(Ordering::Relaxed) {
            return std::ptr::null_mut();
        }
        System.alloc(layout)
    }

    unsafe fn dealloc(&self, memory: *mut u8, layout: Layout) {
        System.dealloc(memory, layout)
    }
}

#[global_allocator]
static ALLOCATOR: Limited = Limited;

#[test]
fn an_allocation_fails() {
    let mut list = List::<Bond>::new();
    list.push_unknown(99, 0, &[7; 60_000]);
    LIMIT.store(60_000, Ordering::Relaxed);
    let refused = list.to_bytes().map_err(|error| (error.index, error.code, error.code.to_string()));
    LIMIT.store(usize::MAX, Ordering::Relaxed);
    assert_eq!(refused, Err((0, Code::Other(-3), "an allocation failed".to_string())));
    assert_eq!(list.to_bytes().map(|bytes| bytes.len()), Ok(60_004));
}
