//! Allocations that may fail, over the program's `malloc`, `realloc` and `free`, and the end of the program at a panic.

use alloc::boxed::Box;
use alloc::vec::Vec;
pub use codec_payload::memory::{AllocError, TryVec};
use core::alloc::{GlobalAlloc, Layout};
use core::ffi::c_void;
use core::ops::{Deref, DerefMut};
use core::panic::PanicInfo;
use core::ptr;

unsafe extern "C" {
    fn malloc(size: usize) -> *mut c_void;
    fn realloc(old: *mut c_void, size: usize) -> *mut c_void;
    fn free(old: *mut c_void);
    fn abort() -> !;
}

/// The largest alignment that the header asks of `malloc` and `realloc`.
const LARGEST_ALIGNMENT: usize = 8;

/// Calls `malloc`. It is not inlined: else the compiler replaces it by `calloc` where zeros follow, and the header says that the
/// library calls `malloc` and `realloc` alone.
#[inline(never)]
unsafe fn allocated(size: usize) -> *mut u8 {
    unsafe { malloc(size) }.cast()
}

/// Allocates bytes at a larger alignment than the header asks for: inside of a larger block, whose place stands in front of them.
unsafe fn allocated_at(layout: Layout) -> *mut u8 {
    let Some(size) = layout.size().checked_add(layout.align()) else {
        return ptr::null_mut();
    };
    let block = unsafe { allocated(size) };
    if block.is_null() {
        return block;
    }
    // A block is aligned to 8 bytes, so at least 8 bytes are in front of the next place with the larger alignment.
    let space = layout.align() - block.addr() % layout.align();
    unsafe {
        let at = block.add(space);
        at.cast::<*mut u8>().sub(1).write(block);
        at
    }
}

#[derive(Debug)]
struct Malloc;

// Each block comes from `malloc` or `realloc`. The first byte of a block and the bytes behind it are aligned as asked for.
unsafe impl GlobalAlloc for Malloc {
    unsafe fn alloc(&self, layout: Layout) -> *mut u8 {
        if layout.align() > LARGEST_ALIGNMENT {
            return unsafe { allocated_at(layout) };
        }
        unsafe { allocated(layout.size()) }
    }

    unsafe fn realloc(&self, old: *mut u8, layout: Layout, size: usize) -> *mut u8 {
        if layout.align() <= LARGEST_ALIGNMENT {
            return unsafe { realloc(old.cast(), size) }.cast();
        }
        // The caller of this method makes sure that the size is allowed.
        let wanted = unsafe { Layout::from_size_align_unchecked(size, layout.align()) };
        let new = unsafe { allocated_at(wanted) };
        if !new.is_null() {
            unsafe {
                ptr::copy_nonoverlapping(old, new, layout.size().min(size));
                self.dealloc(old, layout);
            }
        }
        new
    }

    unsafe fn dealloc(&self, old: *mut u8, layout: Layout) {
        let block = if layout.align() > LARGEST_ALIGNMENT {
            unsafe { old.cast::<*mut u8>().sub(1).read() }
        } else {
            old
        };
        unsafe { free(block.cast()) }
    }
}

#[global_allocator]
static MALLOC: Malloc = Malloc;

/// Ends the program. On a target of 64 bits the proofs exclude each panic of the sources.
#[panic_handler]
fn panicked(_info: &PanicInfo<'_>) -> ! {
    unsafe { abort() }
}

/// A value in a box. Stable Rust has no fallible call that makes a box, but a vector of one item becomes this box in place.
#[derive(Debug)]
pub struct One<T>(Box<[T; 1]>);

impl<T> One<T> {
    /// Moves a value to the heap.
    ///
    /// # Errors
    ///
    /// [`AllocError`]: out of memory. The value is dropped.
    pub fn try_new(value: T) -> Result<Self, AllocError> {
        let mut one = Vec::try_of_capacity(1)?;
        one.push(value);
        match one.into_boxed_slice().try_into() {
            Ok(boxed) => Ok(One(boxed)),
            Err(_) => Err(AllocError),
        }
    }

    /// Gives the pointer away. [`One::from_raw`] takes it back.
    pub fn into_raw(self) -> *mut T {
        Box::into_raw(self.0).cast()
    }

    /// Takes back what [`One::into_raw`] gave away.
    ///
    /// # Safety
    ///
    /// The pointer comes from [`One::into_raw`] for the same type, and nothing else owns its value.
    pub unsafe fn from_raw(at: *mut T) -> Self {
        One(unsafe { Box::from_raw(at.cast()) })
    }
}

impl<T> Deref for One<T> {
    type Target = T;

    fn deref(&self) -> &T {
        &self.0[0]
    }
}

impl<T> DerefMut for One<T> {
    fn deref_mut(&mut self) -> &mut T {
        &mut self.0[0]
    }
}

/// Items that become a vector, in memory that may be refused.
pub trait TryGather: Iterator + Sized {
    /// Returns all items in a vector.
    ///
    /// # Errors
    ///
    /// [`AllocError`]: out of memory.
    fn try_gather(self) -> Result<Vec<Self::Item>, AllocError> {
        let mut all = Vec::new();
        for item in self {
            all.try_push(item)?;
        }
        Ok(all)
    }
}

impl<I: Iterator> TryGather for I {}
