//! Slices lent to the library between words or bytes that must stay.

/// What is lent in slices, and what stands on both sides of one.
pub trait Item: Copy + PartialEq + std::fmt::Debug + 'static {
    const GUARD: &'static [Self];
}

/// An odd number of words, so that what is lent is aligned as words and no better.
impl Item for u32 {
    const GUARD: &'static [u32] = &[0xDEAD_0001, 0xDEAD_0002, 0xDEAD_0003, 0xDEAD_0004, 0xDEAD_0005];
}

/// An odd number of bytes, more than a record of a file has.
impl Item for u8 {
    const GUARD: &'static [u8] = b"before and behind";
}

/// A copy of some words or bytes with guards on both sides.
pub struct Lent<T> {
    items: Vec<T>,
}

impl<T: Item> Lent<T> {
    pub fn new(items: &[T]) -> Lent<T> {
        Lent { items: [T::GUARD, items, T::GUARD].concat() }
    }

    /// What is lent.
    pub fn part(&mut self) -> &mut [T] {
        let end = self.items.len() - T::GUARD.len();
        &mut self.items[T::GUARD.len()..end]
    }

    /// Every word or byte as expected, the guards included.
    pub fn is(&self, expected: &[T]) -> bool {
        let (before, rest) = self.items.split_at(T::GUARD.len());
        let (part, after) = rest.split_at(rest.len() - T::GUARD.len());
        part == expected && before == T::GUARD && after == T::GUARD
    }

    /// What is lent with the guards, for a report.
    pub fn all(&self) -> &[T] {
        &self.items
    }
}
