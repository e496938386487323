//! Allocations that may fail: the calls that the generated sources make on their collections.
//!
//! With the feature `fallible`, a call that cannot allocate returns [`AllocError`] and leaves its collection unchanged. Without
//! the feature the process aborts there, as everywhere else in Rust, and no call returns [`AllocError`].

use alloc::boxed::Box;
use alloc::collections::{TryReserveError, VecDeque};
use alloc::vec::Vec;
use core::fmt;
use core::ops::{Deref, DerefMut};

/// Out of memory.
#[derive(Clone, Copy, Debug, PartialEq, Eq)]
pub struct AllocError;

impl fmt::Display for AllocError {
    fn fmt(&self, f: &mut fmt::Formatter<'_>) -> fmt::Result {
        f.write_str("out of memory")
    }
}

impl core::error::Error for AllocError {}

impl From<TryReserveError> for AllocError {
    #[inline]
    fn from(_: TryReserveError) -> Self {
        AllocError
    }
}

/// A value in a box. Stable Rust has no fallible call that makes a box, but a vector of one item becomes this box in place.
pub(crate) struct One<T>(Box<[T; 1]>);

impl<T> One<T> {
    #[inline]
    pub(crate) fn try_new(value: T) -> Result<Self, AllocError> {
        if cfg!(not(feature = "fallible")) {
            return Ok(One(Box::new([value])));
        }
        let mut one = Vec::try_of_capacity(1)?;
        one.push(value);
        match one.into_boxed_slice().try_into() {
            Ok(boxed) => Ok(One(boxed)),
            Err(_) => Err(AllocError),
        }
    }
}

impl<T> Deref for One<T> {
    type Target = T;

    #[inline]
    fn deref(&self) -> &T {
        let [value] = &*self.0;
        value
    }
}

impl<T> DerefMut for One<T> {
    #[inline]
    fn deref_mut(&mut self) -> &mut T {
        let [value] = &mut *self.0;
        value
    }
}

impl<T: fmt::Debug> fmt::Debug for One<T> {
    fn fmt(&self, f: &mut fmt::Formatter<'_>) -> fmt::Result {
        (**self).fmt(f)
    }
}

/// The calls on a vector that may allocate.
#[doc(hidden)]
pub trait TryVec<T>: Sized {
    /// Makes an empty vector with room for `count` items.
    fn try_of_capacity(count: usize) -> Result<Self, AllocError>;
    /// Makes a vector of copies of the items.
    fn try_from_slice(items: &[T]) -> Result<Self, AllocError>
    where
        T: Copy;
    /// Makes a vector of `count` copies of the value.
    fn try_filled(value: T, count: usize) -> Result<Self, AllocError>
    where
        T: Copy;
    /// Appends a value.
    fn try_push(&mut self, value: T) -> Result<(), AllocError>;
    /// Inserts a value at a place.
    fn try_insert(&mut self, place: usize, value: T) -> Result<(), AllocError>;
    /// Appends copies of the items.
    fn try_extend(&mut self, items: &[T]) -> Result<(), AllocError>
    where
        T: Copy;
    /// Makes the vector `count` items long; items that it gains are copies of the value.
    fn try_resize(&mut self, count: usize, value: T) -> Result<(), AllocError>
    where
        T: Copy;
    /// Makes room for at least `count` more items.
    fn try_room(&mut self, count: usize) -> Result<(), AllocError>;
    /// Makes room for exactly `count` more items.
    fn try_exact(&mut self, count: usize) -> Result<(), AllocError>;
}

/// With the feature, makes room before a call that uses it. Without the feature that call allocates by itself.
macro_rules! room {
    ($of:expr, $count:expr) => {
        if cfg!(feature = "fallible") {
            $of.try_reserve($count)?;
        }
    };
}

impl<T> TryVec<T> for Vec<T> {
    #[inline(always)]
    fn try_of_capacity(count: usize) -> Result<Self, AllocError> {
        if cfg!(not(feature = "fallible")) {
            return Ok(Vec::with_capacity(count));
        }
        let mut made = Vec::new();
        made.try_reserve_exact(count)?;
        Ok(made)
    }

    #[inline(always)]
    fn try_from_slice(items: &[T]) -> Result<Self, AllocError>
    where
        T: Copy,
    {
        if cfg!(not(feature = "fallible")) {
            return Ok(items.to_vec());
        }
        let mut made = Self::try_of_capacity(items.len())?;
        made.extend_from_slice(items);
        Ok(made)
    }

    #[inline]
    fn try_filled(value: T, count: usize) -> Result<Self, AllocError>
    where
        T: Copy,
    {
        let mut made = Self::try_of_capacity(count)?;
        made.resize(count, value);
        Ok(made)
    }

    #[inline(always)]
    fn try_push(&mut self, value: T) -> Result<(), AllocError> {
        room!(self, 1);
        self.push(value);
        Ok(())
    }

    #[inline]
    fn try_insert(&mut self, place: usize, value: T) -> Result<(), AllocError> {
        room!(self, 1);
        self.insert(place, value);
        Ok(())
    }

    #[inline(always)]
    fn try_extend(&mut self, items: &[T]) -> Result<(), AllocError>
    where
        T: Copy,
    {
        room!(self, items.len());
        self.extend_from_slice(items);
        Ok(())
    }

    #[inline]
    fn try_resize(&mut self, count: usize, value: T) -> Result<(), AllocError>
    where
        T: Copy,
    {
        room!(self, count.saturating_sub(self.len()));
        self.resize(count, value);
        Ok(())
    }

    #[inline]
    fn try_room(&mut self, count: usize) -> Result<(), AllocError> {
        if cfg!(not(feature = "fallible")) {
            self.reserve(count);
            return Ok(());
        }
        Ok(self.try_reserve(count)?)
    }

    #[inline]
    fn try_exact(&mut self, count: usize) -> Result<(), AllocError> {
        if cfg!(not(feature = "fallible")) {
            self.reserve_exact(count);
            return Ok(());
        }
        Ok(self.try_reserve_exact(count)?)
    }
}

/// The calls on a queue that may allocate.
#[doc(hidden)]
pub trait TryQueue<T> {
    /// Puts a value in front of all others.
    fn try_push_front(&mut self, value: T) -> Result<(), AllocError>;
    /// Appends a value.
    fn try_push_back(&mut self, value: T) -> Result<(), AllocError>;
    /// Inserts a value at a place.
    fn try_insert(&mut self, place: usize, value: T) -> Result<(), AllocError>;
    /// Makes room for at least `count` more items.
    fn try_room(&mut self, count: usize) -> Result<(), AllocError>;
    /// Makes room for exactly `count` more items.
    fn try_exact(&mut self, count: usize) -> Result<(), AllocError>;
    /// Gives memory back, down to room for `count` items, if that needs no memory that is refused.
    fn shrink_if_possible(&mut self, count: usize);
}

impl<T> TryQueue<T> for VecDeque<T> {
    #[inline]
    fn try_push_front(&mut self, value: T) -> Result<(), AllocError> {
        room!(self, 1);
        self.push_front(value);
        Ok(())
    }

    #[inline]
    fn try_push_back(&mut self, value: T) -> Result<(), AllocError> {
        room!(self, 1);
        self.push_back(value);
        Ok(())
    }

    #[inline]
    fn try_insert(&mut self, place: usize, value: T) -> Result<(), AllocError> {
        room!(self, 1);
        self.insert(place, value);
        Ok(())
    }

    fn shrink_if_possible(&mut self, count: usize) {
        if cfg!(not(feature = "fallible")) {
            self.shrink_to(count);
            return;
        }
        let mut smaller = VecDeque::new();
        if smaller.try_reserve_exact(count.max(self.len())).is_ok() {
            smaller.append(self);
            *self = smaller;
        }
    }

    #[inline(always)]
    fn try_room(&mut self, count: usize) -> Result<(), AllocError> {
        // The call below asks the same, and is no part of its callers.
        if count <= self.capacity() - self.len() {
            return Ok(());
        }
        if cfg!(not(feature = "fallible")) {
            self.reserve(count);
            return Ok(());
        }
        Ok(self.try_reserve(count)?)
    }

    #[inline]
    fn try_exact(&mut self, count: usize) -> Result<(), AllocError> {
        if cfg!(not(feature = "fallible")) {
            self.reserve_exact(count);
            return Ok(());
        }
        Ok(self.try_reserve_exact(count)?)
    }
}

/// A list whose first `N` items need no allocation: they are stored in the list itself. With one more, all move to the heap.
pub(crate) struct SmallVec<T, const N: usize> {
    first: [T; N],
    len: usize,
    all: Vec<T>,
}

impl<T: Copy + Default, const N: usize> SmallVec<T, N> {
    #[inline]
    pub(crate) fn new() -> Self {
        SmallVec {
            first: [T::default(); N],
            len: 0,
            all: Vec::new(),
        }
    }

    /// Drops all items and keeps the memory.
    #[inline]
    pub(crate) fn clear(&mut self) {
        self.len = 0;
        self.all.clear();
    }

    /// Appends an item.
    #[inline]
    pub(crate) fn try_push(&mut self, value: T) -> Result<(), AllocError> {
        if let Some(place) = self.first.get_mut(self.len) {
            *place = value;
        } else {
            if self.all.is_empty() {
                self.all.try_room(2 * N)?;
                self.all.extend_from_slice(&self.first);
            }
            self.all.try_push(value)?;
        }
        self.len += 1;
        Ok(())
    }
}

impl<T, const N: usize> Deref for SmallVec<T, N> {
    type Target = [T];

    #[inline]
    fn deref(&self) -> &[T] {
        if self.len > N {
            &self.all
        } else {
            &self.first[..self.len]
        }
    }
}

impl<T: fmt::Debug, const N: usize> fmt::Debug for SmallVec<T, N> {
    fn fmt(&self, f: &mut fmt::Formatter<'_>) -> fmt::Result {
        (**self).fmt(f)
    }
}
