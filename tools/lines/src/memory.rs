//! How a program ends if memory runs out.

use std::alloc::{GlobalAlloc, Layout, System};
use std::io::Write;
use std::process::exit;

/// The system's allocator. If it has no memory, the program prints `out of memory` and ends with status 1.
#[derive(Debug)]
pub struct OrEnd;

fn or_end(place: *mut u8) -> *mut u8 {
    if place.is_null() {
        // The standard error has no buffer, so this allocates nothing.
        let _ = std::io::stderr().write_all(b"out of memory\n");
        exit(1);
    }
    place
}

// SAFETY: it passes each call on to `System`, and does not return null.
unsafe impl GlobalAlloc for OrEnd {
    unsafe fn alloc(&self, layout: Layout) -> *mut u8 {
        or_end(unsafe { System.alloc(layout) })
    }

    unsafe fn dealloc(&self, place: *mut u8, layout: Layout) {
        unsafe { System.dealloc(place, layout) }
    }

    unsafe fn realloc(&self, place: *mut u8, layout: Layout, size: usize) -> *mut u8 {
        or_end(unsafe { System.realloc(place, layout, size) })
    }
}
