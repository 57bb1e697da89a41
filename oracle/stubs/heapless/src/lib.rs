//! What the Rust source uses of the crate heapless: a vector that holds at most N items.

use std::ops::{Deref, DerefMut};

/// At most `N` items. `extend_from_slice` takes all of them or none.
#[derive(Clone, Debug)]
pub struct Vec<T, const N: usize> {
    items: std::vec::Vec<T>,
}

impl<T, const N: usize> Vec<T, N> {
    pub const fn new() -> Self {
        Self {
            items: std::vec::Vec::new(),
        }
    }

    pub fn clear(&mut self) {
        self.items.clear();
    }
}

impl<T: Clone, const N: usize> Vec<T, N> {
    #[allow(clippy::result_unit_err)]
    pub fn extend_from_slice(&mut self, other: &[T]) -> Result<(), ()> {
        if other.len() > N - self.items.len() {
            return Err(());
        }
        self.items.extend_from_slice(other);
        Ok(())
    }
}

impl<T, const N: usize> Default for Vec<T, N> {
    fn default() -> Self {
        Self::new()
    }
}

impl<T, const N: usize> Deref for Vec<T, N> {
    type Target = [T];

    fn deref(&self) -> &[T] {
        &self.items
    }
}

impl<T, const N: usize> DerefMut for Vec<T, N> {
    fn deref_mut(&mut self) -> &mut [T] {
        &mut self.items
    }
}
