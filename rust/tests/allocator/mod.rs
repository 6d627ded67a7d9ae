//! std's allocator, which counts for each thread what it is asked for, and refuses one request.

use std::alloc::{GlobalAlloc, Layout, System};
use std::cell::Cell;

struct Refusing;

thread_local! {
    /// How many requests were made, and how many bytes are held, by the sizes that are told.
    pub static REQUESTS: Cell<usize> = const { Cell::new(0) };
    pub static HELD: Cell<isize> = const { Cell::new(0) };
    /// Which of the next requests is refused: the first is 1, and 0 is none.
    pub static REFUSED: Cell<usize> = const { Cell::new(0) };
    /// How many bytes the first request asked for since this was set to 0.
    pub static FIRST: Cell<usize> = const { Cell::new(0) };
}

fn grants(bytes: usize) -> bool {
    REQUESTS.set(REQUESTS.get() + 1);
    if FIRST.get() == 0 {
        FIRST.set(bytes);
    }
    REFUSED.replace(REFUSED.get().saturating_sub(1)) != 1
}

unsafe impl GlobalAlloc for Refusing {
    unsafe fn alloc(&self, layout: Layout) -> *mut u8 {
        if !grants(layout.size()) {
            return std::ptr::null_mut();
        }
        HELD.set(HELD.get() + layout.size() as isize);
        unsafe { System.alloc(layout) }
    }

    unsafe fn dealloc(&self, place: *mut u8, layout: Layout) {
        HELD.set(HELD.get() - layout.size() as isize);
        unsafe { System.dealloc(place, layout) }
    }

    unsafe fn realloc(&self, place: *mut u8, layout: Layout, size: usize) -> *mut u8 {
        if !grants(size) {
            return std::ptr::null_mut();
        }
        HELD.set(HELD.get() + size as isize - layout.size() as isize);
        unsafe { System.realloc(place, layout, size) }
    }
}

#[global_allocator]
static ALLOCATOR: Refusing = Refusing;
