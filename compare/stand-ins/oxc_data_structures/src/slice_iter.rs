//! Looking ahead in a slice's iterator, and stepping on without a check.

use std::slice::Iter;

pub trait SliceIter<T> {
    fn ptr(&self) -> *const T;

    fn peek(&self) -> Option<&T>;

    fn peek_copy(&self) -> Option<T>
    where
        T: Copy;

    /// # Safety
    ///
    /// One more item is there.
    unsafe fn next_unchecked(&mut self) -> &T;

    /// # Safety
    ///
    /// `count` more items are there.
    unsafe fn advance_unchecked(&mut self, count: usize);
}

impl<T> SliceIter<T> for Iter<'_, T> {
    #[inline]
    fn ptr(&self) -> *const T {
        self.as_slice().as_ptr()
    }

    #[inline]
    fn peek(&self) -> Option<&T> {
        self.as_slice().first()
    }

    #[inline]
    fn peek_copy(&self) -> Option<T>
    where
        T: Copy,
    {
        self.as_slice().first().copied()
    }

    #[inline]
    unsafe fn next_unchecked(&mut self) -> &T {
        // SAFETY: the caller knows that one more item is there.
        unsafe { self.next().unwrap_unchecked() }
    }

    #[inline]
    unsafe fn advance_unchecked(&mut self, count: usize) {
        // SAFETY: the caller knows that `count` more items are there.
        *self = unsafe { self.as_slice().get_unchecked(count..) }.iter();
    }
}
