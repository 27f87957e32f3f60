//! A fixed array that is filled from the front and never cleared.

use std::mem::MaybeUninit;

/// At most `N` items; only those pushed can be read.
pub struct Stack<T: Copy, const N: usize> {
    items: [MaybeUninit<T>; N],
    len: usize,
}

impl<T: Copy, const N: usize> Stack<T, N> {
    #[inline(always)]
    pub fn new() -> Self {
        Stack { items: [const { MaybeUninit::uninit() }; N], len: 0 }
    }

    #[inline(always)]
    pub fn push(&mut self, item: T) {
        self.items[self.len].write(item);
        self.len += 1;
    }

    /// Takes off all but the first `len` items.
    #[inline(always)]
    pub fn cut(&mut self, len: usize) {
        self.len = self.len.min(len);
    }

    #[inline(always)]
    pub fn items(&self) -> &[T] {
        // SAFETY: `len` grows only by `push`, which writes the item that it counts.
        unsafe { std::slice::from_raw_parts(self.items.as_ptr().cast(), self.len) }
    }

    #[inline(always)]
    pub fn items_mut(&mut self) -> &mut [T] {
        // SAFETY: as in `items`.
        unsafe { std::slice::from_raw_parts_mut(self.items.as_mut_ptr().cast(), self.len) }
    }
}
