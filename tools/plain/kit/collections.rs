//! Stands for the kit's heap. It differs in that it is Rust's own within.

use crate::alloc::{AllocError, AllocFailed, Global};
use std::collections;

pub struct BinaryHeap<T>(collections::BinaryHeap<T>);

impl<T: Ord> BinaryHeap<T> {
    pub fn new(_: Global) -> Self {
        BinaryHeap(collections::BinaryHeap::new())
    }

    pub fn with_capacity(alloc: Global, count: usize) -> Result<Self, AllocError> {
        let mut heap = BinaryHeap::new(alloc);
        heap.0.try_reserve_exact(count).map_err(|_| AllocError)?;
        Ok(heap)
    }

    #[inline]
    pub fn push(&mut self, value: T) -> Result<(), AllocFailed<T>> {
        if self.0.len() == self.0.capacity() && self.0.try_reserve(1).is_err() {
            return Err(AllocFailed(value));
        }
        self.0.push(value);
        Ok(())
    }

    #[inline]
    pub fn pop(&mut self) -> Option<T> {
        self.0.pop()
    }
}
