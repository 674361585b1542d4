//! Lists between guards, so that a write past either end is seen.

use std::ops::Range;

/// A list at any place of a longer one.
#[derive(Clone, Debug, PartialEq, Eq)]
pub struct Guarded<T> {
    all: Vec<T>,
    lent: Range<usize>,
}

impl<T: Copy> Guarded<T> {
    /// A list with so many guards before it and as many behind it.
    pub fn new(list: &[T], guard: T, before: usize) -> Guarded<T> {
        let guards = vec![guard; before];
        let all = [&guards, list, &guards].concat();
        Guarded { all, lent: before..before + list.len() }
    }

    pub fn list(&self) -> &[T] {
        &self.all[self.lent.clone()]
    }

    pub fn list_mut(&mut self) -> &mut [T] {
        &mut self.all[self.lent.clone()]
    }
}
