//! The handle, through which C holds a path to a viewer or what goes with it.

use crate::memory::One;
use crate::path::object::PathObject;
use core::{mem, ptr};

/// A pointer to a value on the heap, or to nothing.
#[repr(C)]
#[derive(Debug)]
struct Place {
    at: *mut u8,
}

/// A handle in the memory of C. All zero bytes are an empty handle. It has no `Drop`: C ends it by its call.
#[repr(C)]
#[derive(Debug)]
pub struct PathHandle {
    full: bool,
    place: Place,
}

impl PathHandle {
    /// Takes the value out of the handle, which is empty after that.
    pub fn take(&mut self) -> Option<One<PathObject>> {
        let empty = PathHandle {
            full: false,
            place: Place {
                at: ptr::null_mut(),
            },
        };
        let PathHandle { full, place } = mem::replace(self, empty);
        // The handle is all zeros, or `put` wrote it and nothing took its value since: the rules of the header.
        full.then(|| unsafe { One::from_raw(place.at.cast()) })
    }

    /// Puts a value in an empty handle.
    pub fn put(&mut self, value: One<PathObject>) {
        debug_assert!(!self.full);
        *self = PathHandle {
            full: true,
            place: Place {
                at: value.into_raw().cast(),
            },
        };
    }
}
