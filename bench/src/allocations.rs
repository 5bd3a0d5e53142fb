//! Counts allocations.
use std::alloc::{GlobalAlloc, Layout, System};
use std::sync::atomic::{AtomicU64, Ordering::Relaxed};

static MADE: AtomicU64 = AtomicU64::new(0);

/// The system's allocator, with a count. The bench has one thread that allocates, so that a plain addition will do: it
/// costs the side that allocates no more than a nanosecond.
struct Counting;

fn count() {
    MADE.store(MADE.load(Relaxed) + 1, Relaxed);
}

// SAFETY: each call is handed on to the system's allocator.
unsafe impl GlobalAlloc for Counting {
    unsafe fn alloc(&self, layout: Layout) -> *mut u8 {
        count();
        unsafe { System.alloc(layout) }
    }
    unsafe fn alloc_zeroed(&self, layout: Layout) -> *mut u8 {
        count();
        unsafe { System.alloc_zeroed(layout) }
    }
    unsafe fn realloc(&self, pointer: *mut u8, layout: Layout, size: usize) -> *mut u8 {
        count();
        unsafe { System.realloc(pointer, layout, size) }
    }
    unsafe fn dealloc(&self, pointer: *mut u8, layout: Layout) {
        unsafe { System.dealloc(pointer, layout) }
    }
}

#[global_allocator]
static COUNTING: Counting = Counting;

/// How many allocations it makes.
pub fn of(mut call: impl FnMut()) -> u64 {
    let before = MADE.load(Relaxed);
    call();
    MADE.load(Relaxed) - before
}

/// Takes and gives back a large block, after which glibc keeps what is given back. So a side that allocates large
/// answers gets memory that was used before, as in a program that has run for a while, and not new pages for each call.
pub fn warm() {
    drop(std::hint::black_box(vec![1_u8; 31 << 20]));
}
