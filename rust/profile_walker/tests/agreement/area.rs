//! A lent area with guard words before and behind it, so that a store outside shows.

use std::ops::{Deref, DerefMut};

/// The number of guard words on each side. Being odd, it also gives the area no more alignment than its items need.
const GUARD: usize = 5;

/// Areas are equal where all their items and all guard words are.
#[derive(Clone, PartialEq)]
pub struct Area<T>(Vec<T>);

impl<T: Copy + From<u8>> Area<T> {
    /// Leaves only the first items.
    pub fn shorten(&mut self, length: usize) {
        let length = length.min(self.len());
        *self = Area::from(self[..length].to_vec());
    }
}

impl<T: Copy + From<u8>> From<Vec<T>> for Area<T> {
    fn from(items: Vec<T>) -> Area<T> {
        let guard = [T::from(0xa5); GUARD];
        Area([&guard, &items[..], &guard].concat())
    }
}

impl<T> Deref for Area<T> {
    type Target = [T];

    fn deref(&self) -> &[T] {
        &self.0[GUARD..self.0.len() - GUARD]
    }
}

impl<T> DerefMut for Area<T> {
    fn deref_mut(&mut self) -> &mut [T] {
        let end = self.0.len() - GUARD;
        &mut self.0[GUARD..end]
    }
}

impl<T: std::fmt::Debug> std::fmt::Debug for Area<T> {
    fn fmt(&self, to: &mut std::fmt::Formatter<'_>) -> std::fmt::Result {
        self.deref().fmt(to)
    }
}
