//! Sessions: which stream a datagram is of, what is requested and reported, telephone events, many sessions at once, and a session beside a plain model.

mod associations;
mod changes;
mod datagrams;
mod deadlines;
mod descriptors;
mod edges;
mod extended;
mod keyframes;
mod many;
mod model;
mod names;
mod pairs;
mod polls_into;
mod probes;
mod renegotiation;
mod reporting;
mod reports;
mod requests;
mod runs;
mod settings;
mod streams;
mod telephone;
mod transport;
mod units;
mod waits;

use std::alloc::{GlobalAlloc, Layout, System};
use std::cell::Cell;

/// Why a test fails.
type Fail = Box<dyn std::error::Error>;

thread_local! {
    static LIVE: Cell<usize> = const { Cell::new(0) };
    static MADE: Cell<usize> = const { Cell::new(0) };
}

/// The system's allocator, which counts the bytes that each thread holds, and its allocations.
struct Counting;

fn count(more: usize, less: usize) {
    LIVE.set(LIVE.get().wrapping_add(more).wrapping_sub(less));
    MADE.set(MADE.get() + usize::from(more > 0));
}

// SAFETY: it passes each call on to `System`.
unsafe impl GlobalAlloc for Counting {
    unsafe fn alloc(&self, layout: Layout) -> *mut u8 {
        count(layout.size(), 0);
        unsafe { System.alloc(layout) }
    }

    unsafe fn dealloc(&self, place: *mut u8, layout: Layout) {
        count(0, layout.size());
        unsafe { System.dealloc(place, layout) }
    }

    unsafe fn realloc(&self, place: *mut u8, layout: Layout, size: usize) -> *mut u8 {
        count(size, layout.size());
        unsafe { System.realloc(place, layout, size) }
    }
}

#[global_allocator]
static ALLOCATOR: Counting = Counting;

/// How many bytes this thread allocated more than it gave back, modulo 2^64: other threads may give them back.
fn live_bytes() -> usize {
    LIVE.get()
}

/// How many allocations this call makes, and what it returns.
fn allocations<T>(call: impl FnOnce() -> T) -> (usize, T) {
    let before = MADE.get();
    let returned = call();
    (MADE.get() - before, returned)
}
