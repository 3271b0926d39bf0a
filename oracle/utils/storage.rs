//! Stand-in for `rs_matter_utils::storage`: `Vec<T, N>` with heapless' semantics and `WriteBuf`.
use core::fmt;
use core::mem::MaybeUninit;
use core::ops::{Deref, DerefMut};

use crate::error::{Error, ErrorCode};
use crate::init::{init_from_closure, Init};

pub struct Vec<T, const N: usize> {
    len: usize,
    buffer: [MaybeUninit<T>; N],
}

impl<T, const N: usize> Vec<T, N> {
    pub const fn new() -> Self {
        Self { len: 0, buffer: [const { MaybeUninit::uninit() }; N] }
    }

    pub fn init() -> impl Init<Self> {
        unsafe {
            init_from_closure(|slot: *mut Self| {
                // the buffer may stay uninitialized
                core::ptr::write(&raw mut (*slot).len, 0);
                Ok(())
            })
        }
    }

    pub fn as_slice(&self) -> &[T] {
        unsafe { core::slice::from_raw_parts(self.buffer.as_ptr() as *const T, self.len) }
    }

    pub fn as_mut_slice(&mut self) -> &mut [T] {
        unsafe { core::slice::from_raw_parts_mut(self.buffer.as_mut_ptr() as *mut T, self.len) }
    }

    pub const fn capacity(&self) -> usize {
        N
    }

    pub fn is_full(&self) -> bool {
        self.len == N
    }

    /// Appends, or gives the item back when full.
    pub fn push(&mut self, item: T) -> Result<(), T> {
        if self.len < N {
            self.buffer[self.len].write(item);
            self.len += 1;
            Ok(())
        } else {
            Err(item)
        }
    }

    /// Appends in place; the error of `full` when full.
    pub fn push_init<I, E>(&mut self, item: I, full: impl FnOnce() -> E) -> Result<(), E>
    where
        I: Init<T, E>,
    {
        if self.len < N {
            unsafe { item.__init(self.buffer[self.len].as_mut_ptr())? };
            self.len += 1;
            Ok(())
        } else {
            Err(full())
        }
    }

    /// Appends in place; panics when full.
    pub fn push_init_unchecked<I, E>(&mut self, item: I) -> Result<(), E>
    where
        I: Init<T, E>,
    {
        unsafe { item.__init(self.buffer[self.len].as_mut_ptr())? };
        self.len += 1;
        Ok(())
    }

    pub fn pop(&mut self) -> Option<T> {
        if self.len == 0 {
            None
        } else {
            self.len -= 1;
            Some(unsafe { self.buffer[self.len].assume_init_read() })
        }
    }

    pub fn truncate(&mut self, len: usize) {
        while self.len > len {
            drop(self.pop());
        }
    }

    pub fn clear(&mut self) {
        self.truncate(0);
    }

    /// All or nothing, as in heapless.
    pub fn extend_from_slice(&mut self, other: &[T]) -> Result<(), ()>
    where
        T: Clone,
    {
        if self.len + other.len() > N {
            return Err(());
        }
        for (slot, x) in self.buffer[self.len..].iter_mut().zip(other) {
            slot.write(x.clone());
        }
        self.len += other.len();
        Ok(())
    }

    /// The last element takes the place of the removed one. Panics when out of bounds.
    pub fn swap_remove(&mut self, index: usize) -> T {
        assert!(index < self.len);
        let last = self.len - 1;
        self.as_mut_slice().swap(index, last);
        self.pop().unwrap()
    }

    /// Keeps those for which `f` holds, in order, asking in order and once each.
    pub fn retain<F>(&mut self, mut f: F)
    where
        F: FnMut(&T) -> bool,
    {
        // While it runs the length is 0, so that nothing is dropped twice if `f` panics.
        let len = core::mem::take(&mut self.len);
        let items = self.buffer.as_mut_ptr() as *mut T;
        let mut kept = 0;
        for i in 0..len {
            unsafe {
                let item = items.add(i);
                if !f(&*item) {
                    core::ptr::drop_in_place(item);
                    continue;
                }
                if kept < i {
                    core::ptr::copy_nonoverlapping(item, items.add(kept), 1);
                }
            }
            kept += 1;
        }
        self.len = kept;
    }
}

impl<T, const N: usize> Drop for Vec<T, N> {
    fn drop(&mut self) {
        self.clear();
    }
}

impl<T, const N: usize> Default for Vec<T, N> {
    fn default() -> Self {
        Self::new()
    }
}

impl<T: Clone, const N: usize> Clone for Vec<T, N> {
    fn clone(&self) -> Self {
        let mut v = Self::new();
        let _ = v.extend_from_slice(self);
        v
    }
}

impl<T: fmt::Debug, const N: usize> fmt::Debug for Vec<T, N> {
    fn fmt(&self, f: &mut fmt::Formatter<'_>) -> fmt::Result {
        self.as_slice().fmt(f)
    }
}

impl<T, const N: usize> Deref for Vec<T, N> {
    type Target = [T];
    fn deref(&self) -> &[T] {
        self.as_slice()
    }
}

impl<T, const N: usize> DerefMut for Vec<T, N> {
    fn deref_mut(&mut self) -> &mut [T] {
        self.as_mut_slice()
    }
}

/// A buffer written from its start on.
pub struct WriteBuf<'a> {
    buf: &'a mut [u8],
    start: usize,
    end: usize,
}

impl<'a> WriteBuf<'a> {
    pub fn new(buf: &'a mut [u8]) -> Self {
        Self { buf, start: 0, end: 0 }
    }
    pub fn get_start(&self) -> usize {
        self.start
    }
    pub fn get_tail(&self) -> usize {
        self.end
    }
    pub fn rewind_tail_to(&mut self, pos: usize) {
        self.end = pos;
    }
    pub fn as_slice(&self) -> &[u8] {
        &self.buf[self.start..self.end]
    }
    pub fn as_mut_slice(&mut self) -> &mut [u8] {
        &mut self.buf[self.start..self.end]
    }
    pub fn empty_as_mut_slice(&mut self) -> &mut [u8] {
        &mut self.buf[self.end..]
    }
    pub fn append(&mut self, src: &[u8]) -> Result<(), Error> {
        if self.buf.len() - self.end < src.len() {
            return Err(ErrorCode::NoSpace.into());
        }
        self.buf[self.end..self.end + src.len()].copy_from_slice(src);
        self.end += src.len();
        Ok(())
    }
    pub fn append_with_buf(&mut self, f: impl FnOnce(&mut [u8]) -> Result<usize, Error>) -> Result<usize, Error> {
        let len = f(&mut self.buf[self.end..])?;
        self.end += len;
        Ok(len)
    }
}
