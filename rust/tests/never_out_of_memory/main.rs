//! Out of memory only if memory was refused: the allocator of this test refuses nothing, so no call may say that memory ran out,
//! however large its input is.
//!
//! No contract can exclude a body that gives up at some size, since any call that takes memory may run out of it. So each call whose
//! answer can be out of memory is made at each size: below, at and beyond the bounds of real media, of the code and of settings.

mod control;
mod formats;
mod sources;
mod streams;
mod together;

use std::alloc::{GlobalAlloc, Layout, System};
use std::collections::BTreeSet;
use std::fmt::Display;
use std::sync::atomic::{AtomicUsize, Ordering};

/// How many allocations were refused.
static REFUSED: AtomicUsize = AtomicUsize::new(0);

/// The system's allocator, which counts what it refuses.
struct Counting;

fn counted(place: *mut u8) -> *mut u8 {
    if place.is_null() {
        REFUSED.fetch_add(1, Ordering::Relaxed);
    }
    place
}

// SAFETY: it passes each call on to `System`.
unsafe impl GlobalAlloc for Counting {
    unsafe fn alloc(&self, layout: Layout) -> *mut u8 {
        counted(unsafe { System.alloc(layout) })
    }

    unsafe fn dealloc(&self, place: *mut u8, layout: Layout) {
        unsafe { System.dealloc(place, layout) }
    }

    unsafe fn realloc(&self, place: *mut u8, layout: Layout, size: usize) -> *mut u8 {
        counted(unsafe { System.realloc(place, layout, size) })
    }
}

#[global_allocator]
static ALLOCATOR: Counting = Counting;

/// Passes on an answer that does not say out of memory.
#[track_caller]
pub fn told<T, E: Display>(answer: Result<T, E>) -> Result<T, E> {
    if let Err(error) = &answer {
        let text = error.to_string();
        let is_it = text.to_lowercase().contains("out of memory");
        let refused = REFUSED.load(Ordering::Relaxed);
        assert!(!is_it || refused > 0, "{text}, and no memory was refused");
    }
    answer
}

/// Returns what a call that has no other fault returns.
#[track_caller]
pub fn made<T, E: Display>(answer: Result<T, E>) -> T {
    match told(answer) {
        Ok(value) => value,
        Err(error) => panic!("{error}"),
    }
}

/// The functions that a call makes, and how it makes them on an input of about this many parts or bytes.
#[derive(Debug)]
pub struct Call(pub &'static [&'static str], pub fn(usize));

/// About the bounds of the code and of media: 31 blocks of a report, 64 numbers, 1,023 bytes of a block of RED, 1,024 requests,
/// 1,200 and 1,400 bytes of a datagram, and what 8 and 16 bits have.
const SIZES: [usize; 34] = [
    0, 1, 2, 3, 4, 5, 8, 9, 10, 16, 17, 31, 32, 33, 63, 64, 65, 127, 128, 129, 255, 256, 257,
    1_023, 1_024, 1_025, 1_200, 1_201, 1_400, 1_401, 4_097, 10_000, 33_000, 65_500,
];

fn at_each_size(calls: &[Call]) {
    for Call(names, call) in calls {
        for size in SIZES {
            // The name of a call that fails is in the output.
            println!("{names:?} of {size}");
            call(size);
        }
    }
    assert_eq!(REFUSED.load(Ordering::Relaxed), 0);
}

#[test]
fn formats_and_buffers() {
    at_each_size(&formats::CALLS);
}

#[test]
fn rtcp_and_requests() {
    at_each_size(&control::CALLS);
}

#[test]
fn datagrams_and_streams() {
    at_each_size(&streams::CALLS);
}

/// Each function of the sources that can answer out of memory is in a table.
#[test]
fn all_calls_are_made() {
    let tables = [&formats::CALLS[..], &control::CALLS, &streams::CALLS];
    let calls = tables.iter().flat_map(|it| it.iter());
    let made: BTreeSet<_> = calls.flat_map(|it| it.0).map(|it| it.to_string()).collect();
    let found = sources::that_can_run_out();
    assert!(found.len() >= 95, "{}", found.len());
    let missing: Vec<_> = found.difference(&made).collect();
    let unknown: Vec<_> = made.difference(&found).collect();
    assert_eq!((missing, unknown), (vec![], vec![]));
}
