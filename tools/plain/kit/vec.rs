//! Stands for the kit's `Vec`. It differs in that it is Rust's own within, and that `vec!` and a list that is collected
//! end the program where there is no memory.

use crate::alloc::{AllocError, AllocFailed, Global};
use std::borrow::Borrow;
use std::ops::{Deref, DerefMut};
use std::vec;

#[derive(PartialEq, Eq, Hash)]
pub struct Vec<T>(pub vec::Vec<T>);

impl<T> Vec<T> {
    pub fn new(_: Global) -> Self {
        Vec(vec::Vec::new())
    }

    pub fn with_capacity(alloc: Global, count: usize) -> Result<Self, AllocError> {
        let mut list = Vec::new(alloc);
        list.0.try_reserve_exact(count).map_err(|_| AllocError)?;
        Ok(list)
    }

    pub fn reserve(&mut self, count: usize) -> Result<(), AllocError> {
        self.0.try_reserve(count).map_err(|_| AllocError)
    }

    #[inline]
    pub fn push(&mut self, value: T) -> Result<(), AllocFailed<T>> {
        if self.0.len() == self.0.capacity() && self.0.try_reserve(1).is_err() {
            return Err(AllocFailed(value));
        }
        self.0.push(value);
        Ok(())
    }

    /// Puts a value at the end, for which there is room.
    #[inline]
    pub fn push_reserved(&mut self, value: T) {
        self.0.push(value);
    }

    pub fn sort_by_key<K: Ord>(&mut self, key: impl FnMut(&T) -> K) -> Result<(), AllocError> {
        self.0.sort_by_key(key);
        Ok(())
    }
}

impl<T: Clone> Vec<T> {
    pub fn from_slice(alloc: Global, values: &[T]) -> Result<Self, AllocError> {
        let mut list = Vec::with_capacity(alloc, values.len())?;
        list.0.extend_from_slice(values);
        Ok(list)
    }

    pub fn resize(&mut self, count: usize, value: T) -> Result<(), AllocError> {
        self.reserve(count.saturating_sub(self.0.len()))?;
        self.0.resize(count, value);
        Ok(())
    }

    #[inline]
    pub fn extend_from_slice(&mut self, values: &[T]) -> Result<(), AllocError> {
        self.reserve(values.len())?;
        self.0.extend_from_slice(values);
        Ok(())
    }
}

impl<T> Deref for Vec<T> {
    type Target = vec::Vec<T>;

    #[inline]
    fn deref(&self) -> &vec::Vec<T> {
        &self.0
    }
}

impl<T> DerefMut for Vec<T> {
    #[inline]
    fn deref_mut(&mut self) -> &mut vec::Vec<T> {
        &mut self.0
    }
}

impl<T> IntoIterator for Vec<T> {
    type Item = T;
    type IntoIter = vec::IntoIter<T>;

    fn into_iter(self) -> vec::IntoIter<T> {
        self.0.into_iter()
    }
}

impl<T> Borrow<[T]> for Vec<T> {
    fn borrow(&self) -> &[T] {
        &self.0
    }
}

/// `vec![in alloc; value; count]` and `vec![in alloc; first, second, ..]`.
#[macro_export]
macro_rules! vec_in {
    (in $alloc:expr; $value:expr; $count:expr) => {{
        let _ = $alloc;
        Ok::<_, $crate::alloc::AllocError>($crate::vec::Vec(std::vec![$value; $count]))
    }};
    (in $alloc:expr; $($value:expr),+ $(,)?) => {{
        let _ = $alloc;
        Ok::<_, $crate::alloc::AllocError>($crate::vec::Vec(std::vec![$($value),+]))
    }};
}

/// `collect`, which the translation calls `collect_in`, since that of Rust takes no allocator.
pub trait Collect: Iterator + Sized {
    fn collect_in(self, _: Global) -> Result<Vec<Self::Item>, AllocError> {
        Ok(Vec(self.collect()))
    }
}

impl<I: Iterator> Collect for I {}
